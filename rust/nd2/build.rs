//! Finds libnd2.a, the proved reader, and links it.
//!
//! ND2_STATICLIB_DIR names a folder that has it, or the libcapi.a and libborder.a of a build that had two. One that is not
//! absolute is looked for from the folder that cargo was called in, from this package's, from rust/ and from the
//! repository's root. Otherwise it is target/lib/libnd2.a of the repository, and c/library writes it there: where it is
//! missing, and where crates.txt or a crate's file is newer. Without `rt` the one that is there is taken.

use std::env;
use std::ffi::OsStr;
use std::fs;
use std::path::{Path, PathBuf};
use std::process::{Command, Output};
use std::time::SystemTime;

const DIR: &str = "ND2_STATICLIB_DIR";
/// The libraries of a folder: the one that has every call, or the two that builds before it had.
const LIBRARIES: [&[&str]; 2] = [&["nd2"], &["capi", "border"]];
/// What a shell answers where a program is not there.
const NO_PROGRAM: i32 = 127;

fn main() {
    println!("cargo:rerun-if-env-changed={DIR}");
    match library_folder() {
        Ok(folder) => link(&folder),
        Err(reason) => {
            eprintln!("{reason}");
            std::process::exit(1);
        }
    }
}

/// Links the libraries of a folder, which the build scripts of packages above this one are told.
fn link(folder: &Path) {
    println!("cargo:rustc-link-search=native={}", folder.display());
    println!("cargo:folder={}", folder.display());
    for name in names(folder).unwrap_or_default() {
        let library = library(folder, name);
        println!("cargo:rerun-if-changed={}", library.display());
        println!("cargo:rustc-link-lib=static={name}");
    }
}

fn library(folder: &Path, name: &str) -> PathBuf {
    folder.join(format!("lib{name}.a"))
}

/// What the libraries of a folder are called; none where they are not there.
fn names(folder: &Path) -> Option<&'static [&'static str]> {
    let there = |names: &&[&str]| names.iter().all(|name| library(folder, name).is_file());
    LIBRARIES.into_iter().find(there)
}

/// The folder that has the libraries.
fn library_folder() -> Result<PathBuf, String> {
    let root = repository()?;
    if let Some(folder) = env::var_os(DIR).filter(|folder| !folder.is_empty()) {
        return given(Path::new(&folder), &root);
    }
    let sources = sources(&root);
    for source in &sources {
        println!("cargo:rerun-if-changed={}", source.display());
    }
    let folder = root.join("target/lib");
    let library = library(&folder, "nd2");
    if stale(&library, &sources) {
        prove(&root, &library)?;
    }
    Ok(folder)
}

/// A folder that was named, wherever it is.
fn given(folder: &Path, root: &Path) -> Result<PathBuf, String> {
    let places = places(folder, root);
    let found = places.iter().find(|place| names(place).is_some());
    let found = found.map(|place| place.canonicalize());
    match found {
        Some(found) => found.map_err(|error| format!("{DIR}: {error}")),
        None => Err(not_found(folder, &places)),
    }
}

fn not_found(folder: &Path, places: &[PathBuf]) -> String {
    let tried = places
        .iter()
        .map(|place| format!("\n  {}", place.display()));
    format!(
        "{DIR} is {}, and libnd2.a (or libcapi.a and libborder.a) is not in{}",
        folder.display(),
        tried.collect::<String>()
    )
}

/// Where a folder that was named may be. A shell says in PWD where it called cargo.
fn places(folder: &Path, root: &Path) -> Vec<PathBuf> {
    if folder.is_absolute() {
        return vec![folder.to_path_buf()];
    }
    println!("cargo:rerun-if-env-changed=PWD");
    let ours = ["rust/nd2", "rust", ""].map(|below| root.join(below));
    let mut bases: Vec<PathBuf> = env::var_os("PWD").map(PathBuf::from).into_iter().collect();
    for base in ours {
        if !bases.contains(&base) {
            bases.push(base);
        }
    }
    bases.iter().map(|base| base.join(folder)).collect()
}

fn repository() -> Result<PathBuf, String> {
    let here = env::var_os("CARGO_MANIFEST_DIR").ok_or("no CARGO_MANIFEST_DIR")?;
    let root = Path::new(&here).join("../..");
    let root = root.canonicalize();
    root.map_err(|error| format!("the repository's root: {error}"))
}

/// What the library is made from: the list of the crates, and what each has but for out/, where `rt` writes.
fn sources(root: &Path) -> Vec<PathBuf> {
    let crates = entries(&root.join("crates"));
    let parts = crates.iter().flat_map(|folder| entries(folder));
    let own = parts.filter(|part| part.file_name() != Some(OsStr::new("out")));
    let list = root.join("crates.txt");
    own.chain([list]).collect()
}

fn entries(folder: &Path) -> Vec<PathBuf> {
    let found = fs::read_dir(folder).into_iter().flatten().flatten();
    found.map(|entry| entry.path()).collect()
}

/// Whether the library is missing, or one of these is newer.
fn stale(library: &Path, sources: &[PathBuf]) -> bool {
    match changed(library) {
        Some(written) => sources.iter().filter_map(|source| newest(source)).max() > Some(written),
        None => true,
    }
}

fn changed(path: &Path) -> Option<SystemTime> {
    fs::metadata(path).and_then(|data| data.modified()).ok()
}

/// When the newest of a file, or of the files below a folder, was changed.
fn newest(path: &Path) -> Option<SystemTime> {
    if !path.is_dir() {
        return changed(path);
    }
    entries(path).iter().filter_map(|entry| newest(entry)).max()
}

/// Proves the reader and writes its library.
fn prove(root: &Path, library: &Path) -> Result<(), String> {
    let begun = SystemTime::now();
    let made = Command::new("sh")
        .arg("c/library")
        .current_dir(root)
        .output();
    let made = made.map_err(|error| format!("sh c/library: {error}"))?;
    match made.status.code() {
        Some(0) => as_of(library, begun),
        Some(NO_PROGRAM) if library.is_file() => {
            println!("cargo:warning=libnd2.a is older than the crates, and c/library does not run: {}", last_line(&made));
            Ok(())
        }
        Some(NO_PROGRAM) => Err(format!(
            "libnd2.a is not there and c/library does not run ({}): install the Rattle kit, or set {DIR}",
            last_line(&made)
        )),
        _ => Err(format!(
            "c/library: {}\n{}{}",
            made.status,
            String::from_utf8_lossy(&made.stdout),
            String::from_utf8_lossy(&made.stderr)
        )),
    }
}

fn last_line(told: &Output) -> String {
    let text = String::from_utf8_lossy(&told.stderr);
    text.lines().last().unwrap_or_default().to_string()
}

/// The library is as old as the making of it: what was changed meanwhile is newer.
fn as_of(library: &Path, time: SystemTime) -> Result<(), String> {
    let file = fs::File::options().append(true).open(library);
    let touched = file.and_then(|file| file.set_modified(time));
    touched.map_err(|error| format!("{}: {error}", library.display()))
}

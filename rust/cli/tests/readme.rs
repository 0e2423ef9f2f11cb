//! Runs what README.md shows: its block for a shell, its program in C and its program in Rust.

mod common;

use common::{Folder, Ran};
use std::env;
use std::ffi::OsString;
use std::io::{self, ErrorKind, Write};
use std::path::{Path, PathBuf};
use std::process::Command;

const README: &str = include_str!("../../../README.md");
/// The program in Rust, as a file that is compiled.
const EXAMPLE: &str = include_str!("../../nd2/examples/readme.rs");
/// The plane that all three read: point, time, lamp and focus step.
const PLANE: [u64; 4] = [16, 0, 1, 5];

mod example {
    include!("../../nd2/examples/readme.rs");

    pub fn run() -> Result<(), Box<dyn Error>> {
        main()
    }
}

/// The one block of a language.
fn block(language: &str) -> String {
    let fence = format!("```{language}\n");
    let mut starts = README.split(fence.as_str()).skip(1);
    let text = starts.next().and_then(|rest| rest.split("```").next());
    assert!(starts.next().is_none(), "two blocks of {language}");
    text.expect("a block of each language").to_string()
}

/// A folder with the sample roller.
fn with_roller() -> Folder {
    let folder = Folder::new();
    folder.run(&["sample", "roller.nd2"]).fine();
    folder
}

/// Runs a program in a folder.
fn ran(program: &mut Command, folder: &Folder) -> Ran {
    Ran::new(program.current_dir(folder.path()).output().unwrap())
}

/// The samples and the sheet of the plane.
fn expected(folder: &Folder) -> (Vec<u8>, Vec<u8>) {
    let file = folder.read("roller.nd2");
    let reader = nd2::Reader::open(&file).unwrap();
    let [scene, t, c, z] = PLANE;
    let samples = reader.plane(scene, t, c, z).unwrap();
    (samples, reader.sheet(scene, t, c, z).unwrap())
}

/// The search path of programs, with the folder of `nd2` before all others.
fn path() -> OsString {
    let program = Path::new(env!("CARGO_BIN_EXE_nd2"));
    let own = program.parent().map(Path::to_path_buf);
    let before = env::var_os("PATH").unwrap_or_default();
    let folders: Vec<PathBuf> = own.into_iter().chain(env::split_paths(&before)).collect();
    env::join_paths(folders).unwrap()
}

#[test]
fn the_block_for_a_shell_runs_and_prints_what_is_shown() {
    let folder = Folder::new();
    let mut shell = Command::new("sh");
    shell.args(["-eu", "-c", &block("sh")]).env("PATH", path());
    let out = ran(&mut shell, &folder).fine();
    assert!(out.contains(&block("text")), "it prints\n{out}");
    assert_eq!(folder.read("plane.tif"), expected(&folder).1);
}

/// The proved library, as a compiler's arguments.
fn library() -> Vec<PathBuf> {
    let folder = Path::new(env!("ND2_LIBRARY_FOLDER"));
    let one = vec![folder.join("libnd2.a")];
    let both = ["libcapi.a", "libborder.a"].map(|name| folder.join(name));
    match one[0].is_file() {
        true => one,
        false => both.to_vec(),
    }
}

/// Compiles the program in C; false where no compiler is there.
fn compiled(folder: &Folder) -> bool {
    folder.write("roller.c", block("c").as_bytes());
    let include = Path::new(env!("CARGO_MANIFEST_DIR")).join("../../include");
    let mut compiler = Command::new("cc");
    compiler.args(["-Wall", "-Wextra", "-Werror", "roller.c", "-o", "roller"]);
    compiler.arg("-I").arg(include).args(library());
    match compiler.current_dir(folder.path()).output() {
        Err(error) if error.kind() == ErrorKind::NotFound => return false,
        told => Ran::new(told.unwrap()).fine(),
    };
    true
}

#[test]
fn the_program_in_c_reads_the_plane() {
    let folder = with_roller();
    if !compiled(&folder) {
        // past what cargo holds back of a test's output
        let _ = writeln!(io::stderr(), "README.md's program in C is not run: no cc");
        return;
    }
    let mut program = Command::new(folder.path().join("roller"));
    let samples = expected(&folder).0;
    let first = u16::from_le_bytes([samples[0], samples[1]]);
    assert_eq!(
        ran(&mut program, &folder).fine(),
        format!("64 x 64 samples of 16 bits, the first is {first}\n")
    );
}

#[test]
fn the_program_in_rust_reads_the_plane() {
    assert_eq!(block("rust"), EXAMPLE, "rust/nd2/examples/readme.rs");
    let folder = with_roller();
    // no other test goes by the folder that this process is in
    env::set_current_dir(folder.path()).unwrap();
    example::run().unwrap();
    assert_eq!(folder.read("plane.tif"), expected(&folder).1);
    env::set_current_dir(env!("CARGO_MANIFEST_DIR")).unwrap();
}

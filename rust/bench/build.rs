//! Compiles the gather in C with the system's compiler. Where there is none, the bench does without it. And says which folder
//! the proved reader's library was linked from.

use std::env;
use std::path::{Path, PathBuf};
use std::process::Command;

const SOURCE: &str = "gather.c";
/// Tried in this order, after the one that CC names: what makes the faster loop comes first.
const COMPILERS: [&str; 3] = ["clang", "cc", "gcc"];

fn main() {
    println!("cargo:rerun-if-changed={SOURCE}");
    println!("cargo:rerun-if-env-changed=CC");
    println!("cargo:rustc-check-cfg=cfg(gather)");
    if let Ok(folder) = env::var("DEP_ND2_FOLDER") {
        println!("cargo:rustc-env=ND2_LIBRARY_FOLDER={folder}");
    }
    let Some(folder) = env::var_os("OUT_DIR") else {
        return;
    };
    let object = PathBuf::from(folder).join("gather.o");
    let named = env::var("CC").ok();
    let mut compilers = named.as_deref().into_iter().chain(COMPILERS);
    match compilers.find(|compiler| compiled(compiler, &object)) {
        Some(compiler) => {
            println!("cargo:rustc-link-arg={}", object.display());
            println!("cargo:rustc-cfg=gather");
            println!("cargo:rustc-env=GATHER_COMPILER={compiler}");
        }
        None => println!("cargo:warning=no C compiler: planes are not held against a gather in C"),
    }
}

/// Whether a compiler is there and compiles it.
fn compiled(compiler: &str, object: &Path) -> bool {
    let status = Command::new(compiler)
        .args(["-std=c99", "-O3", "-fPIC", "-c", SOURCE, "-o"])
        .arg(object)
        .status();
    status.is_ok_and(|status| status.success())
}

//! Says which folder the proved reader's library was linked from: a test links C with it.

fn main() {
    println!("cargo:rerun-if-changed=build.rs");
    if let Ok(folder) = std::env::var("DEP_ND2_FOLDER") {
        println!("cargo:rustc-env=ND2_LIBRARY_FOLDER={folder}");
    }
}

//! What the program says where it is called wrongly, or where the original's files are not there.

use std::env;
use std::ffi::OsStr;
use std::fs;
use std::os::unix::ffi::OsStrExt;
use std::process::Command;

/// The exit status and what stands on the standard error.
fn compare(words: &[&OsStr]) -> (Option<i32>, String) {
    let output = Command::new(env!("CARGO_BIN_EXE_compare"))
        .args(words)
        .output()
        .unwrap();
    let told = String::from_utf8(output.stderr).unwrap();
    assert!(!told.contains("panicked"), "{told}");
    (output.status.code(), told)
}

#[test]
fn a_file_that_cannot_be_read_is_named() {
    let folder = "/no/such/folder";
    let (status, told) = compare(&[OsStr::new(folder)]);
    assert_eq!(status, Some(2));
    let expected = format!("compare: {folder}/nd2_reader.rs: ");
    assert!(told.starts_with(&expected), "{told}");
}

#[test]
fn every_file_of_the_original_is_asked_for() {
    let folder = env::temp_dir().join(format!("compare-words-{}", std::process::id()));
    fs::create_dir_all(&folder).unwrap();
    for name in ["nd2_reader.rs", "calibration.rs", "guard.rs", "types.rs"] {
        let (status, told) = compare(&[folder.as_os_str(), OsStr::new("--unchanged")]);
        assert_eq!(status, Some(2));
        let expected = format!("compare: {}: ", folder.join(name).display());
        assert!(told.starts_with(&expected), "{told}");
        fs::write(folder.join(name), "").unwrap();
    }
    fs::remove_dir_all(&folder).unwrap();
}

#[test]
fn wrong_words_give_the_usage() {
    let no_text = OsStr::from_bytes(b"\xFF");
    for words in [
        &[][..],
        &[OsStr::new("a"), OsStr::new("--what")],
        &[OsStr::new("a"), OsStr::new("--files")],
        &[OsStr::new("a"), OsStr::new("--seed"), no_text],
        &[OsStr::new("a"), no_text],
    ] {
        let (status, told) = compare(words);
        assert_eq!(status, Some(2));
        assert!(told.starts_with("usage: compare"), "{told}");
    }
}

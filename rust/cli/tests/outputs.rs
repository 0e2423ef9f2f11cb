//! Files that are written: whole or not at all, and never over another one unasked.

mod common;

use common::{Folder, Ran};
use sample::parts::Sizes;
use sample::{corner, roller};
use std::fs::{self, File};
use std::os::unix::fs::symlink;
use std::process::Command;
use std::time::Duration;

fn with_roller() -> Folder {
    let folder = Folder::new();
    folder.write("a.nd2", &roller(2, 1, 1, 64, 64));
    folder
}

const OUTPUTS: [&str; 3] = ["p.tif", "p.pgm", "p.raw"];

fn plane<'w>(output: &'w str, more: &[&'w str]) -> Vec<&'w str> {
    let words = ["plane", "a.nd2", "--scene", "1", "-o", output];
    [&words[..], more].concat()
}

#[test]
fn an_output_that_is_there_is_kept_unless_it_is_to_be_replaced() {
    let folder = with_roller();
    for output in OUTPUTS {
        folder.write(output, b"kept");
        let refused = folder.run(&plane(output, &[]));
        refused.fails(
            1,
            &[&format!(
                "nd2: {output}: is there already; --force replaces it\n"
            )],
        );
        assert_eq!(folder.read(output), b"kept");
        folder.run(&plane(output, &["--force"])).fine();
        assert!(folder.read(output).len() > 8000);
    }
    folder.write("s.nd2", b"kept");
    let refused = folder.run(&["sample", "s.nd2"]);
    refused.fails(1, &["nd2: s.nd2: is there already; --force replaces it\n"]);
    assert_eq!(folder.read("s.nd2"), b"kept");
    folder.run(&["sample", "--force", "s.nd2"]).fine();
    assert!(folder.read("s.nd2").len() > 1_000_000);
    assert_eq!(
        folder.names(),
        ["a.nd2", "p.pgm", "p.raw", "p.tif", "s.nd2"]
    );
}

#[test]
fn what_is_no_file_is_not_replaced() {
    let folder = with_roller();
    fs::create_dir(folder.path().join("d.raw")).unwrap();
    symlink("/dev/full", folder.path().join("full.raw")).unwrap();
    for output in ["d.raw", "full.raw"] {
        for more in [&[][..], &["--force"]] {
            let refused = folder.run(&plane(output, more));
            let told = format!("nd2: {output}: is there, and not a regular file\n");
            refused.fails(1, &[&told]);
        }
    }
    symlink("gone.raw", folder.path().join("link.raw")).unwrap();
    let refused = folder.run(&plane("link.raw", &[]));
    refused.fails(1, &["nd2: link.raw: is there already"]);
    assert_eq!(folder.names(), ["a.nd2", "d.raw", "full.raw", "link.raw"]);
    assert!(!folder.has("gone.raw"));
}

#[test]
fn the_file_that_is_read_is_never_replaced() {
    let folder = Folder::new();
    folder.write("a.raw", &roller(1, 1, 1, 2, 2));
    fs::hard_link(folder.path().join("a.raw"), folder.path().join("b.tif")).unwrap();
    for output in ["a.raw", "b.tif", "./a.raw"] {
        for more in [&[][..], &["--force"]] {
            let words = [&["plane", "a.raw", "-o", output][..], more].concat();
            let told = format!("nd2: {output}: is the file that is read\n");
            folder.run(&words).fails(1, &[&told]);
        }
    }
    assert_eq!(folder.read("a.raw"), roller(1, 1, 1, 2, 2));
    assert_eq!(folder.names(), ["a.raw", "b.tif"]);
}

#[test]
fn an_output_that_cannot_be_written_is_told() {
    let folder = with_roller();
    let refused = folder.run(&plane("no/such/p.pgm", &[]));
    refused.fails(1, &["nd2: no/such/p.pgm: No such file"]);
    let refused = folder.run(&["sample", "no/such/s.nd2"]);
    refused.fails(1, &["nd2: no/such/s.nd2: No such file"]);
    assert_eq!(folder.names(), ["a.nd2"]);
}

/// A limit of 1 stands for a full disk: the write that passes it fails.
#[test]
fn nothing_is_left_of_a_file_that_could_not_be_written_whole() {
    let folder = with_roller();
    let limited = |words: &[&str]| Ran::new(folder.limited("-f 1", words).output().unwrap());
    for output in OUTPUTS {
        let told = format!("nd2: {output}: File too large");
        limited(&plane(output, &[])).fails(1, &[&told]);
        assert_eq!(folder.names(), ["a.nd2"]);
        folder.write(output, b"kept");
        limited(&plane(output, &["--force"])).fails(1, &[&told]);
        assert_eq!(folder.read(output), b"kept");
        fs::remove_file(folder.path().join(output)).unwrap();
    }
    limited(&["sample", "s.nd2"]).fails(1, &["nd2: s.nd2: File too large"]);
    assert_eq!(folder.names(), ["a.nd2"]);
}

/// The program is ended while it writes; an attempt at which it was done before is made again.
#[test]
fn nothing_is_left_of_a_file_by_a_program_that_is_ended() {
    let folder = Folder::new();
    let mut out = File::create(folder.path().join("a.nd2")).unwrap();
    corner::hollow(Sizes::packed(1 << 13, 1 << 13, 1, 8), &mut out).unwrap();
    let ended = (0..20).any(|_| {
        let mut child = folder
            .command(&["plane", "a.nd2", "--force", "-o", "p.raw"])
            .spawn()
            .unwrap();
        while folder.names().iter().all(|name| !name.ends_with(".part")) {
            if child.try_wait().unwrap().is_some() {
                return false;
            }
            std::thread::sleep(Duration::from_micros(200));
        }
        let kill = format!("kill {}", child.id());
        let killed = Command::new("sh").args(["-c", &kill]).status();
        assert!(killed.unwrap().success());
        child.wait().unwrap().code().is_none()
    });
    assert!(ended, "it was done each time");
    assert!(folder.names().iter().all(|name| !name.ends_with(".part")));
}

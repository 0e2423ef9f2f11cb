//! Files that are cut or written to while the program reads them.

mod common;

use common::{Folder, Ran};
use sample::{parts, roller, tree, Nd2};
use std::fs::File;
use std::io::{Read, Write};
use std::process::Stdio;
use std::time::{Duration, SystemTime};

const SAID: &str = "nd2: a.nd2: the file changed while it was read";
/// Records of a tree whose lines are far more than a pipe holds.
const RECORDS: u64 = 50_000;

/// A file with a large tree, of an old date.
fn with_tree() -> Folder {
    let mut file = Nd2::new();
    let sizes = parts::Sizes::packed(1, 1, 1, 8);
    file.add(parts::ATTRIBUTES, &parts::attributes(sizes).encode());
    file.add(parts::EXPERIMENT, &parts::experiment(&[]).encode());
    let records = (0..RECORDS).map(|i| tree::u64(&format!("record {i}"), i));
    file.add("Spare!", &tree::level("all", records.collect()).encode());
    written(&file.finish())
}

fn written(bytes: &[u8]) -> Folder {
    let folder = Folder::new();
    folder.write("a.nd2", bytes);
    let old = SystemTime::UNIX_EPOCH + Duration::from_secs(1_000_000_000);
    open(&folder).set_modified(old).unwrap();
    folder
}

fn open(folder: &Folder) -> File {
    let path = folder.path().join("a.nd2");
    File::options().write(true).open(path).unwrap()
}

/// Runs a command and does something to its file when its first byte is out. It cannot be done then: what it has to print is
/// more than a pipe holds, and nobody reads it yet.
fn meanwhile(folder: &Folder, words: &[&str], change: impl FnOnce(File)) -> Ran {
    let mut command = folder.command(words);
    command.stdout(Stdio::piped()).stderr(Stdio::piped());
    let mut child = command.spawn().unwrap();
    let out = child.stdout.as_mut().unwrap();
    out.read_exact(&mut [0]).unwrap();
    change(open(folder));
    Ran::new(child.wait_with_output().unwrap())
}

#[test]
fn a_file_that_is_cut_ends_the_command_with_a_sentence() {
    let folder = with_tree();
    let ran = meanwhile(&folder, &["tree", "a.nd2", "Spare"], |file| {
        file.set_len(0).unwrap()
    });
    ran.fails(1, &[SAID]);
    assert_eq!(ran.err, format!("{SAID}, or its disk failed (SIGBUS)\n"));
    assert!(ran.out.lines().count() < RECORDS as usize);
}

#[test]
fn a_file_that_is_written_to_is_told() {
    let folder = with_tree();
    let ran = meanwhile(&folder, &["tree", "a.nd2", "Spare"], |mut file| {
        file.write_all(&[0xDA]).unwrap()
    });
    ran.fails(1, &[]);
    assert_eq!(ran.err, format!("{SAID}\n"));
}

#[test]
fn a_file_that_grows_is_told() {
    for words in [&["register", "a.nd2"][..], &["register", "--json", "a.nd2"]] {
        let folder = written(&roller(20_000, 1, 1, 1, 1));
        let ran = meanwhile(&folder, words, |file| file.set_len(10_000_000).unwrap());
        ran.fails(1, &[]);
        assert_eq!(ran.err, format!("{SAID}\n"));
    }
}

#[test]
fn a_file_that_stays_is_read_to_its_end() {
    let folder = with_tree();
    let ran = meanwhile(&folder, &["tree", "a.nd2", "Spare"], drop);
    // the first byte was taken
    assert_eq!(ran.fine().lines().count(), RECORDS as usize + 1);
}

//! Files on a disk.

use nd2::{File, Refusal};
use std::fs;
use std::io::{self, Write};
use std::path::PathBuf;
use std::time::{Duration, SystemTime};

/// A file that is removed when the test ends.
struct Scratch(PathBuf);

impl Scratch {
    fn new(name: &str, bytes: &[u8]) -> Scratch {
        let path = std::env::temp_dir().join(format!("nd2-{}-{name}", std::process::id()));
        fs::write(&path, bytes).unwrap();
        Scratch(path)
    }

    fn open(&self) -> fs::File {
        fs::File::options().write(true).open(&self.0).unwrap()
    }
}

impl Drop for Scratch {
    fn drop(&mut self) {
        let _ = fs::remove_file(&self.0);
    }
}

/// Maps a scratch file.
fn mapped(scratch: &Scratch) -> io::Result<File> {
    // SAFETY: nobody but the test knows the file; one that it changes is not read afterwards.
    unsafe { File::map_path(&scratch.0) }
}

#[test]
fn a_file_is_read_or_mapped() {
    let bytes = sample::roller(2, 3, 2, 4, 4);
    let scratch = Scratch::new("roller", &bytes);
    for (file, is_mapped) in [
        (File::open_path(&scratch.0).unwrap(), false),
        (mapped(&scratch).unwrap(), true),
    ] {
        assert_eq!(file.bytes(), bytes);
        let reader = file.reader().unwrap();
        assert_eq!(reader.summary().planes(), 12);
        assert_eq!(reader.plane(1, 0, 1, 2).unwrap().len(), 32);
        assert!(!file.changed().unwrap());
        let told = format!("File {{ len: {}, mapped: {is_mapped} }}", bytes.len());
        assert_eq!(format!("{file:?}"), told);
    }
}

#[test]
fn an_empty_file_is_foreign() {
    let scratch = Scratch::new("empty", &[]);
    for file in [
        File::open_path(&scratch.0).unwrap(),
        mapped(&scratch).unwrap(),
    ] {
        assert!(file.is_empty());
        assert_eq!(file.reader().map(|_| ()), Err(Refusal::FOREIGN));
    }
}

#[test]
fn what_is_no_file_is_an_error() {
    for path in [
        std::env::temp_dir(),
        "/no/such/file".into(),
        "/dev/null".into(),
    ] {
        assert!(File::open_path(&path).is_err());
        // SAFETY: nothing is mapped.
        assert!(unsafe { File::map_path(&path) }.is_err());
    }
}

/// Cut and written over, what was read into memory stays; with a mapping it would be undefined, or the end of the program.
#[test]
fn a_file_that_was_read_does_not_change() {
    let bytes = sample::roller(2, 3, 2, 4, 4);
    let scratch = Scratch::new("kept", &bytes);
    let file = File::open_path(&scratch.0).unwrap();
    let mut out = scratch.open();
    out.set_len(0).unwrap();
    out.write_all(b"something else").unwrap();
    assert!(file.bytes() == bytes);
    assert!(!file.changed().unwrap());
    assert_eq!(file.reader().unwrap().plane(1, 0, 1, 2).unwrap().len(), 32);
}

/// A mapped file whose length, or whose time, is another one. It is not read any more.
#[test]
fn a_change_of_a_mapped_file_is_seen() {
    let old = SystemTime::UNIX_EPOCH + Duration::from_secs(1_000_000_000);
    let change: [fn(&fs::File) -> io::Result<()>; 3] = [
        |file| file.set_len(10),
        |mut file| file.write_all(&[0xDA]),
        |file| file.set_modified(SystemTime::now()),
    ];
    for (i, change) in change.iter().enumerate() {
        let scratch = Scratch::new(&format!("changed-{i}"), &sample::roller(1, 1, 1, 2, 2));
        scratch.open().set_modified(old).unwrap();
        let file = mapped(&scratch).unwrap();
        assert!(!file.changed().unwrap());
        change(&scratch.open()).unwrap();
        assert!(file.changed().unwrap(), "{i}");
    }
}

/// A file that says it has more bytes than any memory: an error, and no abort.
#[test]
fn a_file_that_is_too_large_to_read_is_an_error() {
    let scratch = Scratch::new("large", &[]);
    // where the folder cannot have such a file, a smaller one would be read
    if scratch.open().set_len(1 << 43).is_err() {
        eprintln!("no files of 2^43 bytes in {}", scratch.0.display());
        return;
    }
    let refused = File::open_path(&scratch.0).unwrap_err();
    assert_eq!(refused.kind(), io::ErrorKind::OutOfMemory);
    assert_eq!(mapped(&scratch).unwrap().len(), 1 << 43);
}

//! Files, mapped while a command works on them, with errors that say where.

use crate::failure::Failure;
use crate::text::of_os;
use crate::{misnamed, signals};
use nd2::{File, Reader};
use std::ffi::OsStr;
use std::io::{self, IsTerminal};

const CHANGED: &str = "the file changed while it was read";

/// Maps a file, works on it, and looks whether it stayed as it was meanwhile: else that is what went wrong, whatever the
/// work gave.
pub fn with<T>(path: &OsStr, work: impl FnOnce(&File) -> Result<T, Failure>) -> Result<T, Failure> {
    let place = of_os(path);
    let failed = |error| Failure::at(&place, error);
    // SAFETY: what this asks for, the program cannot have by itself: a roller is too large to be read into memory, and
    // nothing keeps other programs from writing to it. Where one is cut, SIGBUS ends the program with a sentence; where
    // one is written to, it is told below. Such a file was read while its bytes were not what the proofs speak of.
    let file = unsafe { File::map_path(path) }.map_err(failed)?;
    // on a terminal it is written over a line of progress
    let over = if io::stderr().is_terminal() {
        "\r\x1b[K"
    } else {
        ""
    };
    signals::mapped(Some(format!(
        "{over}nd2: {place}: {CHANGED}, or its disk failed (SIGBUS)\n"
    )));
    let answer = work(&file);
    let changed = file.changed();
    drop(file);
    signals::mapped(None);
    match answer {
        Err(Failure::Usage(..) | Failure::Closed) => answer,
        _ if changed.map_err(failed)? => Err(Failure::at(&place, CHANGED)),
        _ => answer,
    }
}

/// The chunks that opening needs.
const NEEDED: [&[u8]; 2] = [b"ImageAttributesLV!", b"ImageMetadataLV!"];

/// Opens a mapped file.
pub fn reader<'f>(path: &OsStr, file: &'f File) -> Result<Reader<'f>, Failure> {
    file.reader()
        .map_err(|refusal| misnamed::failure(of_os(path), refusal, file, &NEEDED))
}

#[cfg(test)]
mod tests {
    use super::*;
    use std::fs;
    use std::path::PathBuf;
    use std::time::SystemTime;

    /// A file that is removed when the test ends.
    struct Scratch(PathBuf);

    impl Drop for Scratch {
        fn drop(&mut self) {
            let _ = fs::remove_file(&self.0);
        }
    }

    /// What is told of some work, during which the file may get another date.
    fn told(name: &str, touched: bool, answer: Result<u32, Failure>) -> String {
        let name = format!("nd2-cli-open-{}-{name}-{touched}", std::process::id());
        let scratch = Scratch(std::env::temp_dir().join(name));
        fs::write(&scratch.0, b"x").unwrap();
        let file = fs::File::options().write(true).open(&scratch.0).unwrap();
        file.set_modified(SystemTime::UNIX_EPOCH).unwrap();
        let answer = with(scratch.0.as_os_str(), |_| {
            if touched {
                file.set_modified(SystemTime::now()).unwrap();
            }
            answer
        });
        match answer {
            Ok(number) => number.to_string(),
            Err(Failure::Error(what)) => match what.strip_prefix(&*scratch.0.to_string_lossy()) {
                Some(what) => format!("FILE{what}"),
                None => what,
            },
            Err(Failure::Usage(what, _)) => what,
            Err(Failure::Told) => "told".to_string(),
            Err(Failure::Closed) => "closed".to_string(),
        }
    }

    #[test]
    fn a_change_is_told_whatever_the_work_gave() {
        let changed = "FILE: the file changed while it was read";
        let refused = || Err(Failure::Error("refused".to_string()));
        assert_eq!(told("ok", false, Ok(7)), "7");
        assert_eq!(told("ok", true, Ok(7)), changed);
        assert_eq!(told("refused", false, refused()), "refused");
        assert_eq!(told("refused", true, refused()), changed);
        let usage = Err(Failure::usage("wrong", "plane"));
        assert_eq!(told("usage", true, usage), "wrong");
        assert_eq!(told("closed", true, Err(Failure::Closed)), "closed");
    }
}

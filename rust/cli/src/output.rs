//! Files that are written: whole, or not at all.

use crate::failure::{Done, Failure};
use crate::{signals, text};
use std::ffi::OsStr;
use std::fs::{self, File};
use std::io::{self, BufWriter, Write};
use std::path::{Path, PathBuf};

/// So many names are tried for the file beside the output.
const MOST_NAMES: u32 = 100;
const THERE: &str = "is there already; --force replaces it";

/// An output that is there is refused, unless it is to be replaced.
pub fn free(path: &OsStr, force: bool) -> Done {
    let failed = |what: &str| Err(Failure::at(text::of_os(path), what));
    match (fs::symlink_metadata(path), fs::metadata(path)) {
        (Err(_), _) => Ok(()),
        (Ok(_), Ok(data)) if !data.is_file() => failed("is there, and not a regular file"),
        (Ok(_), _) if !force => failed(THERE),
        _ => Ok(()),
    }
}

/// Writes a file beside the output and gives it the output's name when it is whole. Where something fails, nothing of it is
/// left, and an output that was there is as it was.
pub fn write(
    path: &OsStr,
    force: bool,
    fill: impl FnOnce(&mut BufWriter<File>) -> io::Result<()>,
) -> Done {
    free(path, force)?;
    let failed = |error: io::Error| Failure::at(text::of_os(path), error);
    let (beside, file) = Beside::new(Path::new(path)).map_err(failed)?;
    let written = filled(file, fill).and_then(|()| beside.named(Path::new(path), force));
    match written {
        Err(error) if error.kind() == io::ErrorKind::AlreadyExists => {
            Err(Failure::at(text::of_os(path), THERE))
        }
        written => written.map_err(failed),
    }
}

/// Fills a file; some disks say only when it is to be on them that they are full.
fn filled(file: File, fill: impl FnOnce(&mut BufWriter<File>) -> io::Result<()>) -> io::Result<()> {
    let mut out = BufWriter::new(file);
    fill(&mut out)?;
    out.flush()?;
    out.get_ref().sync_all()
}

/// A file beside the output, which is removed when this is dropped, or a signal ends the program.
struct Beside(PathBuf);

impl Beside {
    /// A new file in the output's folder.
    fn new(output: &Path) -> io::Result<(Beside, File)> {
        let process = std::process::id();
        for i in 0..MOST_NAMES {
            let path = output.with_file_name(format!(".nd2-{process}-{i}.part"));
            signals::writing(Some(&path));
            match File::create_new(&path) {
                Ok(file) => return Ok((Beside(path), file)),
                Err(error) if error.kind() == io::ErrorKind::AlreadyExists => {}
                Err(error) => {
                    signals::writing(None);
                    return Err(error);
                }
            }
        }
        signals::writing(None);
        Err(io::Error::other("no name is free beside it"))
    }

    /// Gives it the output's name. Without force a link is made, which never replaces a file; a disk that has no links
    /// is looked at once more.
    fn named(&self, output: &Path, force: bool) -> io::Result<()> {
        if force {
            return fs::rename(&self.0, output);
        }
        match fs::hard_link(&self.0, output) {
            Err(error) if error.kind() == io::ErrorKind::AlreadyExists => Err(error),
            Err(_) if fs::symlink_metadata(output).is_ok() => {
                Err(io::ErrorKind::AlreadyExists.into())
            }
            Err(_) => fs::rename(&self.0, output),
            Ok(()) => Ok(()),
        }
    }
}

impl Drop for Beside {
    fn drop(&mut self) {
        // it is gone where it was renamed
        let _ = fs::remove_file(&self.0);
        signals::writing(None);
    }
}

#[cfg(test)]
mod tests {
    use super::*;

    /// A folder that is removed when the test ends.
    struct Folder(PathBuf);

    impl Folder {
        fn new(name: &str) -> Folder {
            let name = format!("nd2-cli-output-{}-{name}", std::process::id());
            let path = std::env::temp_dir().join(name);
            fs::create_dir_all(&path).unwrap();
            Folder(path)
        }

        fn count(&self) -> usize {
            fs::read_dir(&self.0).unwrap().count()
        }
    }

    impl Drop for Folder {
        fn drop(&mut self) {
            let _ = fs::remove_dir_all(&self.0);
        }
    }

    fn is_there(done: Done) -> bool {
        matches!(done, Err(Failure::Error(what)) if what.ends_with(THERE))
    }

    #[test]
    fn an_output_that_is_there_is_refused_before_anything_is_written() {
        let folder = Folder::new("before");
        let path = folder.0.join("out");
        fs::write(&path, b"kept").unwrap();
        assert!(is_there(write(path.as_os_str(), false, |_| unreachable!())));
        assert_eq!(fs::read(&path).unwrap(), b"kept");
    }

    #[test]
    fn an_output_that_comes_meanwhile_is_not_replaced() {
        let folder = Folder::new("meanwhile");
        let path = folder.0.join("out");
        let done = write(path.as_os_str(), false, |out| {
            fs::write(&path, b"another's")?;
            out.write_all(b"ours")
        });
        assert!(is_there(done));
        assert_eq!(fs::read(&path).unwrap(), b"another's");
        assert_eq!(folder.count(), 1);
        let done = write(path.as_os_str(), true, |out| out.write_all(b"ours"));
        assert!(done.is_ok());
        assert_eq!(fs::read(&path).unwrap(), b"ours");
        assert_eq!(folder.count(), 1);
    }

    #[test]
    fn nothing_has_the_name_before_it_is_whole() {
        let folder = Folder::new("whole");
        let path = folder.0.join("out");
        let done = write(path.as_os_str(), false, |out| {
            out.write_all(b"half")?;
            out.flush()?;
            assert!(!path.exists());
            assert_eq!(folder.count(), 1);
            Err(io::Error::other("no more"))
        });
        assert!(done.is_err());
        assert_eq!(folder.count(), 0);
    }
}

//! An earlier build of the proved reader, linked as a shared library and called in this process.

use crate::library::{Library, Symbol};
use std::fs;
use std::io;
use std::mem::transmute;
use std::path::{Path, PathBuf};
use std::process::Command;

/// What the library is called, and what it was called before it had every call.
const ARCHIVES: [&str; 2] = ["libnd2.a", "libcapi.a"];

type Open = unsafe extern "C" fn(*const u8, usize, *mut u8, usize, *mut u8, usize) -> u32;

#[derive(Clone, Copy)]
pub struct Before {
    open: Open,
}

/// Links the library of a folder, and loads it. Its own names are bound to each other, not to those of this build.
pub fn load(folder: &Path) -> io::Result<Before> {
    let linked = std::env::temp_dir().join(format!("bench-before-{}.so", std::process::id()));
    let loaded = link(&archive(folder)?, &linked).and_then(|_| Before::load(&linked));
    let _ = fs::remove_file(&linked);
    loaded
}

/// The library of a folder, by the first of its names that is there.
fn archive(folder: &Path) -> io::Result<PathBuf> {
    let mut archives = ARCHIVES.iter().map(|name| folder.join(name));
    let [now, before] = ARCHIVES;
    let missing = || io::Error::other(format!("{folder:?} has neither {now} nor {before}"));
    archives
        .find(|archive| archive.is_file())
        .ok_or_else(missing)
}

fn link(archive: &Path, linked: &Path) -> io::Result<()> {
    let status = Command::new("cc")
        .args(["-shared", "-Wl,-Bsymbolic", "-Wl,--whole-archive"])
        .arg(archive)
        .args(["-Wl,--no-whole-archive", "-o"])
        .arg(linked)
        .status()?;
    match status.success() {
        true => Ok(()),
        false => Err(io::Error::other(format!("{archive:?} does not link"))),
    }
}

impl Before {
    fn load(linked: &Path) -> io::Result<Before> {
        // SAFETY: nd2_open has this type in every build.
        unsafe {
            let library = Library::load(linked)?;
            let open = transmute::<Symbol, Open>(library.symbol("nd2_open")?);
            Ok(Before { open })
        }
    }

    /// Opens a file as `nd2::raw::open` does.
    pub fn open(&self, file: &[u8], table: &mut [u8], summary: &mut [u8]) -> u32 {
        // SAFETY: every slice has its length, and those that are written overlap no other.
        unsafe {
            (self.open)(
                file.as_ptr(),
                file.len(),
                table.as_mut_ptr(),
                table.len(),
                summary.as_mut_ptr(),
                summary.len(),
            )
        }
    }
}

#[cfg(test)]
mod tests {
    use super::*;

    #[test]
    fn the_newer_name_comes_first() {
        let folder = std::env::temp_dir().join(format!("bench-archive-{}", std::process::id()));
        fs::create_dir_all(&folder).unwrap();
        let nothing = archive(&folder).unwrap_err().to_string();
        assert!(
            nothing.ends_with("has neither libnd2.a nor libcapi.a"),
            "{nothing}"
        );
        for name in ["libcapi.a", "libnd2.a"] {
            fs::write(folder.join(name), "").unwrap();
            assert_eq!(archive(&folder).unwrap(), folder.join(name));
        }
        fs::remove_dir_all(&folder).unwrap();
    }
}

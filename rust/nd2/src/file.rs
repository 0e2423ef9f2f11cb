//! A file on a disk: read into memory, or mapped.

use crate::mapping::{Mapping, Stamp};
use crate::reader::Reader;
use crate::refusal::Refusal;
use std::fmt;
use std::fs;
use std::io::{self, Read};
use std::ops::Deref;
use std::path::Path;

/// The bytes of a file on a disk.
///
/// [`open_path`](File::open_path) reads them into memory; [`map_path`](File::map_path) maps a file that is too large for
/// that, and is unsafe, since it rests on what other programs do.
pub struct File(Bytes);

enum Bytes {
    Read(Vec<u8>),
    Mapped(Mapping),
}

impl File {
    /// Reads the whole file at a path into memory. What becomes of the file afterwards changes nothing here.
    ///
    /// # Errors
    ///
    /// What the operating system says; "not a regular file" for folders, pipes and devices; "out of memory" where there is
    /// none for so many bytes; and "the file changed while it was read" where its length or its modification time is
    /// another one after reading.
    pub fn open_path(path: impl AsRef<Path>) -> io::Result<File> {
        let file = opened(path.as_ref())?;
        let stamp = Stamp::of(&file)?;
        Ok(File(Bytes::Read(read(file, stamp)?)))
    }

    /// Maps the file at a path into memory: nothing is read before it is needed, so that a roller of some gigabytes is
    /// opened at once.
    ///
    /// # Safety
    ///
    /// As long as the value lives, nobody may change or cut the file, this program and any other included. Of a file
    /// that was cut the operating system ends the program that reads behind its end (SIGBUS). Bytes that change while
    /// they are borrowed are undefined behaviour in Rust, and what is proved of the calls holds for bytes that stay as they are.
    ///
    /// # Errors
    ///
    /// What the operating system says, and "not a regular file" for folders, pipes and devices.
    ///
    /// ```
    /// # fn main() -> Result<(), Box<dyn std::error::Error>> {
    /// # let path = std::env::temp_dir().join(format!("nd2-doc-map-{}.nd2", std::process::id()));
    /// # std::fs::write(&path, sample::roller(3, 2, 2, 8, 4))?;
    /// // SAFETY: the file is this program's own, and written no more.
    /// let file = unsafe { nd2::File::map_path(&path)? };
    /// assert_eq!(file.reader()?.summary().planes(), 12);
    /// assert!(!file.changed()?);
    /// # std::fs::remove_file(&path)?;
    /// # Ok(())
    /// # }
    /// ```
    pub unsafe fn map_path(path: impl AsRef<Path>) -> io::Result<File> {
        let file = opened(path.as_ref())?;
        // SAFETY: the caller promises it.
        let mapping = unsafe { Mapping::new(file)? };
        Ok(File(Bytes::Mapped(mapping)))
    }

    /// The file's bytes.
    pub fn bytes(&self) -> &[u8] {
        match &self.0 {
            Bytes::Read(bytes) => bytes,
            Bytes::Mapped(mapping) => mapping.bytes(),
        }
    }

    /// Whether a mapped file has another length or modification time than when it was mapped: what was read of it since may
    /// then be of neither state. A change that leaves both alone is not seen. Bytes that were read into memory do not
    /// change.
    ///
    /// # Errors
    ///
    /// What the operating system says.
    pub fn changed(&self) -> io::Result<bool> {
        match &self.0 {
            Bytes::Read(_) => Ok(false),
            Bytes::Mapped(mapping) => mapping.changed(),
        }
    }

    /// Opens it as an ND2 file.
    ///
    /// # Errors
    ///
    /// As [`Reader::open`].
    pub fn reader(&self) -> Result<Reader<'_>, Refusal> {
        Reader::open(self.bytes())
    }
}

/// Opens a regular file.
fn opened(path: &Path) -> io::Result<fs::File> {
    // looked at first, since opening a pipe would wait for its writer
    regular(&fs::metadata(path)?)?;
    let file = fs::File::open(path)?;
    regular(&file.metadata()?)?;
    Ok(file)
}

fn regular(data: &fs::Metadata) -> io::Result<()> {
    match data.is_file() {
        true => Ok(()),
        false => Err(io::Error::new(
            io::ErrorKind::InvalidInput,
            "not a regular file",
        )),
    }
}

/// What the file holds, if it is still the one of a stamp when it is read.
fn read(file: fs::File, stamp: Stamp) -> io::Result<Vec<u8>> {
    let mut bytes = Vec::new();
    // a file that grew gives one byte more
    let room = stamp.len.saturating_add(1);
    let count = usize::try_from(room).map_err(io::Error::other)?;
    bytes.try_reserve_exact(count)?;
    (&file).take(room).read_to_end(&mut bytes)?;
    match bytes.len() as u64 == stamp.len && Stamp::of(&file)? == stamp {
        true => Ok(bytes),
        false => Err(io::Error::other("the file changed while it was read")),
    }
}

impl Deref for File {
    type Target = [u8];

    fn deref(&self) -> &[u8] {
        self.bytes()
    }
}

impl fmt::Debug for File {
    fn fmt(&self, f: &mut fmt::Formatter<'_>) -> fmt::Result {
        let mut out = f.debug_struct("File");
        out.field("len", &self.bytes().len());
        let mapped = matches!(self.0, Bytes::Mapped(_));
        out.field("mapped", &mapped).finish()
    }
}

#[cfg(test)]
mod tests {
    use super::*;
    use std::io::Write;
    use std::time::{Duration, SystemTime};

    /// Reads a file that something is done to after its stamp was taken.
    fn after(name: &str, change: impl FnOnce(&mut fs::File)) -> io::Result<Vec<u8>> {
        let name = format!("nd2-read-{}-{name}", std::process::id());
        let path = std::env::temp_dir().join(name);
        fs::write(&path, b"0123456789")?;
        let mut other = fs::File::options().write(true).open(&path)?;
        other.set_modified(SystemTime::UNIX_EPOCH + Duration::from_secs(1))?;
        let file = opened(&path)?;
        let stamp = Stamp::of(&file)?;
        change(&mut other);
        let answer = read(file, stamp);
        fs::remove_file(&path)?;
        answer
    }

    #[test]
    fn a_file_that_changes_while_it_is_read_is_an_error() {
        assert_eq!(after("as-it-was", |_| {}).unwrap(), b"0123456789");
        let told = |answer: io::Result<Vec<u8>>| answer.unwrap_err().to_string();
        let said = "the file changed while it was read";
        assert_eq!(told(after("cut", |file| file.set_len(4).unwrap())), said);
        assert_eq!(told(after("grown", |file| file.set_len(40).unwrap())), said);
        let written = after("written", |file| file.write_all(b"x").unwrap());
        assert_eq!(told(written), said);
    }
}

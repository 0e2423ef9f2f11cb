//! A file that is mapped into memory.

use std::ffi::{c_int, c_void};
use std::fs;
use std::io;
use std::os::fd::AsRawFd;
use std::ptr::NonNull;
use std::slice;
use std::time::SystemTime;

const PROT_READ: c_int = 1;
const MAP_PRIVATE: c_int = 2;

extern "C" {
    fn mmap(
        address: *mut c_void,
        len: usize,
        protection: c_int,
        flags: c_int,
        descriptor: c_int,
        offset: i64,
    ) -> *mut c_void;
    fn munmap(address: *mut c_void, len: usize) -> c_int;
}

/// The length and the modification time of a file, by which a change is seen.
#[derive(Clone, Copy, PartialEq, Eq)]
pub struct Stamp {
    pub len: u64,
    modified: SystemTime,
}

impl Stamp {
    pub fn of(file: &fs::File) -> io::Result<Stamp> {
        let data = file.metadata()?;
        Ok(Stamp {
            len: data.len(),
            modified: data.modified()?,
        })
    }
}

/// A file's bytes, mapped as long as this lives.
pub struct Mapping {
    /// None for a file of no bytes, which cannot be mapped.
    start: Option<NonNull<u8>>,
    len: usize,
    file: fs::File,
    stamp: Stamp,
}

// SAFETY: the mapping is only ever read, and belongs to the value.
unsafe impl Send for Mapping {}
unsafe impl Sync for Mapping {}

impl Mapping {
    /// Maps a file.
    ///
    /// # Safety
    ///
    /// Nobody changes or cuts the file as long as this lives.
    pub unsafe fn new(file: fs::File) -> io::Result<Mapping> {
        let stamp = Stamp::of(&file)?;
        let len = usize::try_from(stamp.len).map_err(io::Error::other)?;
        let start = match len {
            0 => None,
            _ => Some(mapped(&file, len)?),
        };
        Ok(Mapping {
            start,
            len,
            file,
            stamp,
        })
    }

    pub fn bytes(&self) -> &[u8] {
        match self.start {
            None => &[],
            // SAFETY: `len` bytes are mapped at `start` until the value is dropped, and nobody changes them: so it was
            // promised to `new`.
            Some(start) => unsafe { slice::from_raw_parts(start.as_ptr(), self.len) },
        }
    }

    /// Whether the file has another length or modification time than when it was mapped.
    pub fn changed(&self) -> io::Result<bool> {
        Ok(Stamp::of(&self.file)? != self.stamp)
    }
}

fn mapped(file: &fs::File, len: usize) -> io::Result<NonNull<u8>> {
    let descriptor = file.as_raw_fd();
    // SAFETY: a new mapping at an address of the system's choice touches no memory that is in use.
    let address = unsafe {
        mmap(
            std::ptr::null_mut(),
            len,
            PROT_READ,
            MAP_PRIVATE,
            descriptor,
            0,
        )
    };
    if address as isize == -1 {
        return Err(io::Error::last_os_error());
    }
    NonNull::new(address.cast()).ok_or_else(|| io::Error::other("mapped at no address"))
}

impl Drop for Mapping {
    fn drop(&mut self) {
        if let Some(start) = self.start {
            // SAFETY: it was mapped with this length, and no slice of it outlives the value.
            unsafe { munmap(start.as_ptr().cast(), self.len) };
        }
    }
}

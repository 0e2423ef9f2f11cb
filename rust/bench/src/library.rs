//! A shared library that is loaded into this process and stays until the program ends.

use std::ffi::{c_char, c_int, c_void, CString};
use std::io;
use std::os::unix::ffi::OsStrExt;
use std::path::Path;

/// All is bound at once, and no other library sees its names.
const RTLD_NOW: c_int = 2;

extern "C" {
    fn dlopen(path: *const c_char, flags: c_int) -> *mut c_void;
    fn dlsym(library: *mut c_void, name: *const c_char) -> *mut c_void;
}

pub type Symbol = *mut c_void;

pub struct Library {
    handle: *mut c_void,
    path: CString,
}

impl Library {
    /// # Safety
    ///
    /// What the library does when it is loaded has to be sound.
    pub unsafe fn load(path: &Path) -> io::Result<Library> {
        let path = CString::new(path.as_os_str().as_bytes())?;
        let handle = dlopen(path.as_ptr(), RTLD_NOW);
        match handle.is_null() {
            true => Err(io::Error::other(format!("{path:?} cannot be loaded"))),
            false => Ok(Library { handle, path }),
        }
    }

    /// Where a function of the library stands.
    pub fn symbol(&self, name: &str) -> io::Result<Symbol> {
        let c_name = CString::new(name)?;
        // SAFETY: the library is loaded, and the name ends in a zero.
        let found = unsafe { dlsym(self.handle, c_name.as_ptr()) };
        match found.is_null() {
            true => Err(io::Error::other(format!("{:?} has no {name}", self.path))),
            false => Ok(found),
        }
    }
}

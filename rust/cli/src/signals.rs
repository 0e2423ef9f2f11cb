//! Signals: what is said where a mapped file is cut while it is read, and that no half-written file is left.

#[cfg(not(all(target_os = "linux", target_arch = "x86_64")))]
compile_error!(
    "signals are numbered here as Linux does on x86-64, for which the proved reader is made"
);

use std::ffi::{c_char, c_int, CString};
use std::os::unix::ffi::OsStrExt;
use std::path::Path;
use std::ptr::null_mut;
use std::sync::atomic::{AtomicPtr, Ordering};

const SIGHUP: c_int = 1;
const SIGINT: c_int = 2;
const SIGBUS: c_int = 7;
const SIGTERM: c_int = 15;
const SIGXFSZ: c_int = 25;

const SIG_DFL: usize = 0;
const SIG_IGN: usize = 1;
const STANDARD_ERROR: c_int = 2;
const REFUSED: c_int = 1;

extern "C" {
    fn signal(number: c_int, handler: usize) -> usize;
    fn raise(number: c_int) -> c_int;
    fn write(descriptor: c_int, bytes: *const u8, len: usize) -> isize;
    fn unlink(path: *const c_char) -> c_int;
    fn _exit(status: c_int) -> !;
}

/// What is said of the mapped file; null where none is mapped. What it points to is never freed, since a signal may come at
/// any moment.
static SAID: AtomicPtr<Vec<u8>> = AtomicPtr::new(null_mut());
/// The path of the file that is being written; null where none is. Never freed either.
static WRITTEN: AtomicPtr<c_char> = AtomicPtr::new(null_mut());

/// Reading behind the end of a mapped file that was cut, or what its disk does not give, raises this.
extern "C" fn on_bus(number: c_int) {
    let said = SAID.load(Ordering::Acquire);
    // SAFETY: a pointer that is not null was leaked by `mapped` and is only read; write, _exit and signal may be called here.
    unsafe {
        match said.as_ref() {
            Some(said) => {
                write(STANDARD_ERROR, said.as_ptr(), said.len());
                _exit(REFUSED)
            }
            // the same again, and the system's own way to end
            None => signal(number, SIG_DFL),
        }
    };
}

/// The program is to end: what it has written of a file goes with it.
extern "C" fn on_end(number: c_int) {
    let written = WRITTEN.load(Ordering::Acquire);
    // SAFETY: a pointer that is not null is a path that `writing` leaked; all three calls may be made here.
    unsafe {
        if !written.is_null() {
            unlink(written);
        }
        signal(number, SIG_DFL);
        raise(number);
    }
}

/// Takes the signals over, once.
pub fn watch() {
    // SAFETY: the handlers call nothing that may not be called in one.
    unsafe {
        signal(SIGBUS, on_bus as *const () as usize);
        // a file that grows past its limit is an error of the write that does it
        signal(SIGXFSZ, SIG_IGN);
        for number in [SIGHUP, SIGINT, SIGTERM] {
            if signal(number, on_end as *const () as usize) == SIG_IGN {
                signal(number, SIG_IGN);
            }
        }
    }
}

/// From now on a file is mapped, and this is said where its bytes are not there any more; none: it is mapped no more.
pub fn mapped(said: Option<String>) {
    let said = said.map_or(null_mut(), |said| {
        Box::into_raw(Box::new(said.into_bytes()))
    });
    SAID.store(said, Ordering::Release);
}

/// From now on the file at a path is being written; none: it is whole, or gone.
pub fn writing(path: Option<&Path>) {
    // a path with a zero in it cannot be opened either
    let path = path.and_then(|path| CString::new(path.as_os_str().as_bytes()).ok());
    let path = path.map_or(null_mut(), CString::into_raw);
    WRITTEN.store(path, Ordering::Release);
}

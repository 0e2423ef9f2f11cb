//! The original, built unchanged from its own source as a shared library and called in this process.
//!
//! Its four files are copied as they are into a folder of their own; after the reader's text stands one line that names a
//! child module, through which what is private there is reached.

use crate::library::{Library, Symbol};
use std::ffi::c_void;
use std::fs;
use std::io;
use std::marker::PhantomData;
use std::mem::transmute;
use std::path::{Path, PathBuf};
use std::process::Command;

const UNCHANGED: [&str; 3] = ["calibration.rs", "guard.rs", "types.rs"];
const READER: &str = "nd2_reader.rs";
const DRIVER: [(&str, &str); 5] = [
    ("lib.rs", include_str!("../driver/lib.rs")),
    ("access.rs", include_str!("../driver/access.rs")),
    ("io.rs", include_str!("../driver/io.rs")),
    ("stand_ins.rs", include_str!("../driver/stand_ins.rs")),
    ("error.rs", include_str!("../../compare/driver/error.rs")),
];

type Handle = *mut c_void;
type Open = unsafe extern "C" fn(*const u8, usize) -> Handle;
type Close = unsafe extern "C" fn(Handle);
type Plane = unsafe extern "C" fn(Handle, u64, u64, u64, u64) -> usize;
type PlaneInto = unsafe extern "C" fn(Handle, u64, u64, u64, u64, *mut u8, usize) -> usize;
type Register = unsafe extern "C" fn(Handle, *mut u8, usize) -> usize;

/// The loaded library, which stays until the program ends.
#[derive(Clone, Copy)]
pub struct Original {
    open: Open,
    close: Close,
    plane: Plane,
    plane_into: PlaneInto,
    register: Register,
}

/// A file that the original has opened.
pub struct Opened<'f> {
    original: Original,
    handle: Handle,
    file: PhantomData<&'f [u8]>,
}

/// Compiles the original in a folder of its own, which is gone afterwards, and loads it.
pub fn load(source: &Path) -> io::Result<Original> {
    let folder = std::env::temp_dir().join(format!("bench-original-{}", std::process::id()));
    let loaded = build(source, &folder).and_then(|library| Original::load(&library));
    let _ = fs::remove_dir_all(&folder);
    loaded
}

/// The bytes of one of the original's files; where it cannot be read, its name is told.
fn read(path: &Path) -> io::Result<Vec<u8>> {
    let named = |error| io::Error::other(format!("{}: {error}", path.display()));
    fs::read(path).map_err(named)
}

fn build(source: &Path, folder: &Path) -> io::Result<PathBuf> {
    fs::create_dir_all(folder)?;
    for (name, text) in DRIVER {
        fs::write(folder.join(name), text)?;
    }
    for name in UNCHANGED {
        fs::write(folder.join(name), read(&source.join(name))?)?;
    }
    let mut text = read(&source.join(READER))?;
    text.extend_from_slice(b"\n#[path = \"access.rs\"]\npub mod access;\n");
    fs::write(folder.join(READER), text)?;
    let library = folder.join("liboriginal.so");
    let status = Command::new("rustc")
        .args(["--edition", "2021", "--cap-lints", "allow"])
        .args(["--crate-name", "original", "--crate-type", "cdylib"])
        .args(["-C", "opt-level=3", "-C", "codegen-units=1"])
        .arg("-o")
        .arg(&library)
        .arg(folder.join("lib.rs"))
        .status()?;
    match status.success() {
        true => Ok(library),
        false => Err(io::Error::other("the original does not compile")),
    }
}

impl Original {
    fn load(library: &Path) -> io::Result<Original> {
        // SAFETY: the library was just built from `driver`, whose functions have the types that are given here.
        unsafe {
            let library = Library::load(library)?;
            let find = |name| library.symbol(name);
            Ok(Original {
                open: transmute::<Symbol, Open>(find("original_open")?),
                close: transmute::<Symbol, Close>(find("original_close")?),
                plane: transmute::<Symbol, Plane>(find("original_plane")?),
                plane_into: transmute::<Symbol, PlaneInto>(find("original_plane_into")?),
                register: transmute::<Symbol, Register>(find("original_register")?),
            })
        }
    }

    /// Opens a file; none where the original refuses it.
    pub fn open<'f>(&self, file: &'f [u8]) -> Option<Opened<'f>> {
        // SAFETY: what is opened borrows the file.
        let handle = unsafe { (self.open)(file.as_ptr(), file.len()) };
        (!handle.is_null()).then_some(Opened {
            original: *self,
            handle,
            file: PhantomData,
        })
    }
}

impl Opened<'_> {
    /// Reads a plane and gives it back; its bytes.
    pub fn plane(&self, at: [u64; 4]) -> usize {
        let [scene, t, c, z] = at;
        // SAFETY: the handle is open.
        unsafe { (self.original.plane)(self.handle, scene, t, c, z) }
    }

    /// A plane's bytes into a buffer; how many.
    pub fn plane_into(&self, at: [u64; 4], samples: &mut [u8]) -> usize {
        let [scene, t, c, z] = at;
        let (start, len) = (samples.as_mut_ptr(), samples.len());
        // SAFETY: the handle is open, and the buffer has its length.
        unsafe { (self.original.plane_into)(self.handle, scene, t, c, z, start, len) }
    }

    /// The register, made from one lookup for each frame.
    pub fn register(&self, buffer: &mut [u8]) -> usize {
        let (start, len) = (buffer.as_mut_ptr(), buffer.len());
        // SAFETY: the handle is open, and the buffer has its length.
        unsafe { (self.original.register)(self.handle, start, len) }
    }
}

impl Drop for Opened<'_> {
    fn drop(&mut self) {
        // SAFETY: the handle is open, and is not used again.
        unsafe { (self.original.close)(self.handle) };
    }
}

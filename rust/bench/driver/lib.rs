//! The original as a shared library over lent bytes. Its own files are compiled as they are; the names that it expects
//! from elsewhere stand in `stand_ins`, `error` and `io`.
extern crate self as byteorder;
extern crate self as flate2;
extern crate self as memmap2;

mod calibration;
mod error;
mod guard;
mod io;
mod nd2_reader;
mod stand_ins;
mod types;

pub use stand_ins::{read, BigEndian, LittleEndian, Mmap, ReadBytesExt};

use nd2_reader::{access, Nd2Reader};
use std::slice;

/// Opens a file that outlives the reader; null where it is refused.
///
/// # Safety
///
/// `file` has `len` bytes that stay until the reader is closed.
#[no_mangle]
pub unsafe extern "C" fn original_open(file: *const u8, len: usize) -> *mut Nd2Reader {
    let opened = access::open(slice::from_raw_parts(file, len));
    opened.map_or(std::ptr::null_mut(), |reader| Box::into_raw(Box::new(reader)))
}

/// # Safety
///
/// `reader` comes from `original_open` and is not used again.
#[no_mangle]
pub unsafe extern "C" fn original_close(reader: *mut Nd2Reader) {
    drop(Box::from_raw(reader));
}

/// Reads a plane and gives it back; its bytes, or 0 where it is refused.
///
/// # Safety
///
/// `reader` comes from `original_open`.
#[no_mangle]
pub unsafe extern "C" fn original_plane(
    reader: *const Nd2Reader,
    scene: u64,
    t: u64,
    c: u64,
    z: u64,
) -> usize {
    access::plane(&*reader, [scene, t, c, z])
}

/// The bytes of a plane into a buffer; how many they are, or 0 where it is refused.
///
/// # Safety
///
/// `reader` comes from `original_open`, and `samples` has `len` bytes.
#[no_mangle]
pub unsafe extern "C" fn original_plane_into(
    reader: *const Nd2Reader,
    scene: u64,
    t: u64,
    c: u64,
    z: u64,
    samples: *mut u8,
    len: usize,
) -> usize {
    let samples = slice::from_raw_parts_mut(samples, len);
    access::plane_into(&*reader, [scene, t, c, z], samples)
}

/// Looks up every frame in the reader's map and writes the register of it; its bytes.
///
/// # Safety
///
/// `reader` comes from `original_open`, and `buffer` has `len` bytes.
#[no_mangle]
pub unsafe extern "C" fn original_register(
    reader: *const Nd2Reader,
    buffer: *mut u8,
    len: usize,
) -> usize {
    access::register(&*reader, slice::from_raw_parts_mut(buffer, len))
}

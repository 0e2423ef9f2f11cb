//! What the original uses of the crates memmap2, flate2 and byteorder. Numbers are read as the crate does it: all bytes
//! at once, and then put in order where they are not.

use std::io::{Read, Result};
use std::ops::Deref;
use std::slice;

pub struct Mmap(pub &'static [u8]);

impl Deref for Mmap {
    type Target = [u8];

    fn deref(&self) -> &[u8] {
        self.0
    }
}

pub mod read {
    use std::io::{Error, Read, Result};

    pub struct ZlibDecoder<R>(R);

    impl<R: Read> ZlibDecoder<R> {
        pub fn new(inner: R) -> Self {
            ZlibDecoder(inner)
        }
    }

    impl<R: Read> Read for ZlibDecoder<R> {
        fn read(&mut self, _: &mut [u8]) -> Result<usize> {
            Err(Error::other("packed"))
        }
    }
}

/// The order of a number's bytes.
pub trait Order {
    const LITTLE: bool;
}

pub enum LittleEndian {}

pub enum BigEndian {}

impl Order for LittleEndian {
    const LITTLE: bool = true;
}

impl Order for BigEndian {
    const LITTLE: bool = false;
}

/// Fills numbers with the next bytes.
fn fill<T: Order, N: Copy>(from: &mut (impl Read + ?Sized), into: &mut [N]) -> Result<()> {
    let (start, len) = (into.as_mut_ptr().cast::<u8>(), size_of_val(into));
    // SAFETY: the numbers that are read are whole numbers and floats, which may have any bytes.
    let bytes = unsafe { slice::from_raw_parts_mut(start, len) };
    from.read_exact(bytes)?;
    if !T::LITTLE {
        bytes
            .chunks_exact_mut(size_of::<N>())
            .for_each(|number| number.reverse());
    }
    Ok(())
}

pub trait ReadBytesExt: Read {
    fn read_u16_into<T: Order>(&mut self, into: &mut [u16]) -> Result<()> {
        fill::<T, u16>(self, into)
    }

    fn read_i16_into<T: Order>(&mut self, into: &mut [i16]) -> Result<()> {
        fill::<T, i16>(self, into)
    }

    fn read_f32_into<T: Order>(&mut self, into: &mut [f32]) -> Result<()> {
        fill::<T, f32>(self, into)
    }
}

impl<R: Read + ?Sized> ReadBytesExt for R {}

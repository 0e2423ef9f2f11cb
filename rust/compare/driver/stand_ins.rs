//! What the original uses of the crates memmap2, flate2 and byteorder. Nothing is ever inflated: a packed record that
//! is reached is an error which says so.

use std::io::{Read, Result};
use std::ops::Deref;
use std::sync::Arc;

pub struct Mmap(pub Arc<Vec<u8>>);

impl Deref for Mmap {
    type Target = [u8];

    fn deref(&self) -> &[u8] {
        &self.0
    }
}

pub mod read {
    use std::io::{Error, Read, Result};

    pub struct ZlibDecoder<R>(R);

    impl<R: Read> ZlibDecoder<R> {
        pub fn new(inner: R) -> Self {
            ZlibDecoder(inner)
        }
    }

    impl<R: Read> Read for ZlibDecoder<R> {
        fn read(&mut self, _: &mut [u8]) -> Result<usize> {
            Err(Error::other("packed"))
        }
    }
}

/// The order of a number's bytes.
pub trait Order {
    const LITTLE: bool;
}

pub enum LittleEndian {}

pub enum BigEndian {}

impl Order for LittleEndian {
    const LITTLE: bool = true;
}

impl Order for BigEndian {
    const LITTLE: bool = false;
}

/// The next bytes, the lowest first.
fn ordered<T: Order, const N: usize>(from: &mut (impl Read + ?Sized)) -> Result<[u8; N]> {
    let mut bytes = [0; N];
    from.read_exact(&mut bytes)?;
    if !T::LITTLE {
        bytes.reverse();
    }
    Ok(bytes)
}

pub trait ReadBytesExt: Read {
    fn read_u16_into<T: Order>(&mut self, into: &mut [u16]) -> Result<()> {
        for place in into {
            *place = u16::from_le_bytes(ordered::<T, 2>(self)?);
        }
        Ok(())
    }

    fn read_i16_into<T: Order>(&mut self, into: &mut [i16]) -> Result<()> {
        for place in into {
            *place = i16::from_le_bytes(ordered::<T, 2>(self)?);
        }
        Ok(())
    }

    fn read_f32_into<T: Order>(&mut self, into: &mut [f32]) -> Result<()> {
        for place in into {
            *place = f32::from_bits(u32::from_le_bytes(ordered::<T, 4>(self)?));
        }
        Ok(())
    }
}

impl<R: Read + ?Sized> ReadBytesExt for R {}

//! Document 01, Attributes: the sizes of a frame, and what they have to be.

use crate::numbers::{signed_field, unsigned_field};
use crate::refusal::{BITS, COMPRESSION, FRAME_SHAPE, MISSING};
use crate::values::Level;

pub const CHUNK_NAME: &[u8] = b"ImageAttributesLV!";

const UNCOMPRESSED: i64 = 2;
const MOST_COMPONENTS: u64 = 1024;
const MOST_64: u128 = u64::MAX as u128;

/// `stride` is document 01's "row bytes".
#[derive(Clone, Copy, Debug, PartialEq, Eq)]
pub struct Attributes {
    pub width: u64,
    pub stride: u64,
    pub height: u64,
    pub components: u64,
    pub bits: u64,
}

impl Attributes {
    pub fn sample_bytes(&self) -> u64 {
        self.bits / 8
    }

    /// The bytes of a plane, one component of a frame; `None` from 2^128 on, which 64 bits cannot count either.
    pub fn plane_bytes(&self) -> Option<u128> {
        let samples = self.width as u128 * self.height as u128;
        samples.checked_mul(self.sample_bytes() as u128)
    }

    pub fn bits_known(&self) -> bool {
        matches!(self.bits, 8 | 16 | 32)
    }

    /// Whether 14 does not hold, the bytes of a plane apart: no size is 0, there are at most 1,024 components, and the
    /// samples of a row have no more bytes than the stride or than 64 bits count.
    pub fn shape_holds(&self) -> bool {
        if self.width == 0 || self.height == 0 || self.components == 0 {
            return false;
        }
        if self.components > MOST_COMPONENTS {
            return false;
        }
        let row = self.width as u128 * self.components as u128 * self.sample_bytes() as u128;
        row <= MOST_64 && row <= self.stride as u128
    }

    /// Whether 64 bits count the bytes of a plane: else 14, judged after the loops.
    pub fn plane_holds(&self) -> bool {
        self.plane_bytes().is_some_and(|bytes| bytes <= MOST_64)
    }
}

/// The attributes in a tree: 11, 12, 13, and 14 but for the bytes of a plane.
pub fn read(root: &Level) -> Result<Attributes, u32> {
    let level = root.level("SLxImageAttributes").ok_or(MISSING)?;
    let field = |name| unsigned_field(level, name).ok_or(MISSING);
    let attributes = Attributes {
        width: field("uiWidth")?,
        stride: field("uiWidthBytes")?,
        height: field("uiHeight")?,
        components: field("uiComp")?,
        bits: field("uiBpcInMemory")?,
    };
    if attributes.bits > u32::MAX as u64 {
        return Err(MISSING);
    }
    if signed_field(level, "eCompression") != Some(UNCOMPRESSED) {
        return Err(COMPRESSION);
    }
    if !attributes.bits_known() {
        return Err(BITS);
    }
    if !attributes.shape_holds() {
        return Err(FRAME_SHAPE);
    }
    Ok(attributes)
}

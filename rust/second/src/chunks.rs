//! Document 01, Map and chunks: a chunk is a header of 16 bytes (the mark, the length of its name, the length of its
//! data), then the name, then the data.

use crate::bytes::{u32_at, u64_at};
use crate::refusal::CHUNK;
use crate::types::Range;

/// What every chunk begins with, and every file.
pub const MARK: u32 = 0x0ABE_CEDA;

const HEADER: u128 = 16;

/// The data of the chunk at `offset`, whose name has to begin with `begins`. In order: 4 for a header outside the file,
/// for another mark and for a name outside the file; `misnamed` for another name; 4 for data outside the file.
/// `misnamed` is 4 for the map's own chunk, and 29, since change request 6, for one that the map leads to.
pub fn data(file: &[u8], offset: u64, begins: &[u8], misnamed: u32) -> Result<Range, u32> {
    let end = file.len() as u128;
    let name_start = offset as u128 + HEADER;
    if name_start > end {
        return Err(CHUNK);
    }
    let at = offset as usize;
    if u32_at(file, at) != Some(MARK) {
        return Err(CHUNK);
    }
    let name_len = u32_at(file, at + 4).ok_or(CHUNK)?;
    let len = u64_at(file, at + 8).ok_or(CHUNK)?;
    let name_end = name_start + name_len as u128;
    if name_end > end {
        return Err(CHUNK);
    }
    if !file[name_start as usize..name_end as usize].starts_with(begins) {
        return Err(misnamed);
    }
    if name_end + len as u128 > end {
        return Err(CHUNK);
    }
    let start = name_end as u64;
    Ok(Range { start, len })
}

/// A part of the file, where it lies in it.
pub fn part(file: &[u8], range: Range) -> Option<&[u8]> {
    let end = range.start as u128 + range.len as u128;
    if end > file.len() as u128 {
        return None;
    }
    Some(&file[range.start as usize..end as usize])
}

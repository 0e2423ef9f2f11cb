//! Document 01, Map and chunks: the locator, a mark and where the map's chunk begins, ends the file. The map is a row
//! of entries: a name, up to and with the next `!`, then an offset and a size of eight bytes each. A name that is the
//! locator's mark ends it.

use crate::bytes::u64_at;
use crate::chunks;
use crate::refusal::{CHUNK, CHUNK_NAME, MAP, TAIL};
use crate::types::Range;
use std::collections::HashMap;

pub const END: &[u8; 32] = b"ND2 CHUNK MAP SIGNATURE 0000001!";
pub const NAME: &[u8; 32] = b"ND2 FILEMAP SIGNATURE NAME 0001!";

const TAIL_BYTES: usize = 40;
const MOST_ENTRIES: usize = 2_000_000;

/// Where the map's data lies: 3, then the map chunk's 4.
pub fn place(file: &[u8]) -> Result<Range, u32> {
    let start = file.len().checked_sub(TAIL_BYTES).ok_or(TAIL)?;
    let tail = &file[start..];
    if !tail.starts_with(END) {
        return Err(TAIL);
    }
    let offset = u64_at(tail, END.len()).ok_or(TAIL)?;
    chunks::data(file, offset, NAME, CHUNK)
}

/// The entries in map order: name and offset. Sizes are passed over.
pub struct Map<'a> {
    entries: Vec<(&'a [u8], u64)>,
}

/// What stands at a place: an entry's name and offset, and where the next begins; or the end mark. 5 where it is cut.
enum Step<'a> {
    Entry(&'a [u8], u64, usize),
    End,
}

fn step(data: &[u8], at: usize) -> Result<Step<'_>, u32> {
    let rest = &data[at..];
    let bang = rest.iter().position(|&b| b == b'!').ok_or(MAP)?;
    let name = &rest[..=bang];
    if name == END {
        return Ok(Step::End);
    }
    let after = at + bang + 1;
    let offset = u64_at(data, after).ok_or(MAP)?;
    u64_at(data, after + 8).ok_or(MAP)?;
    Ok(Step::Entry(name, offset, after + 16))
}

impl<'a> Map<'a> {
    /// Reads a whole map: 5 where it ends before the end mark or inside an entry, or has more than 2,000,000 entries.
    pub fn read(data: &'a [u8]) -> Result<Self, u32> {
        let mut entries = Vec::new();
        let mut at = 0;
        while let Step::Entry(name, offset, next) = step(data, at)? {
            if entries.len() == MOST_ENTRIES {
                return Err(MAP);
            }
            entries.push((name, offset));
            at = next;
        }
        Ok(Map { entries })
    }

    /// The offset of the furthest entry down that has the name.
    pub fn find(&self, name: &[u8]) -> Option<u64> {
        let found = self.entries.iter().rev().find(|entry| entry.0 == name);
        found.map(|entry| entry.1)
    }

    /// The data of the chunk under a name, which has to bear that name: `absent` where the map has none, then 4 and 29 in
    /// the chunk's own order.
    pub fn chunk(&self, file: &[u8], name: &[u8], absent: u32) -> Result<Range, u32> {
        let offset = self.find(name).ok_or(absent)?;
        chunks::data(file, offset, name, CHUNK_NAME)
    }

    /// All names with their last offsets, where many are looked up.
    pub fn index(&self) -> HashMap<&'a [u8], u64> {
        self.entries.iter().copied().collect()
    }
}

//! Document 01, Trees: a chunk's records, read into entries in file order.

use crate::bytes::{put_u64, u16_at, u32_at, u64_at};
use crate::refusal::{CUT, DEEP, KIND, LEVEL, PACKED, TABLE};
use crate::types::Range;

pub const FLAG: u8 = 1;
pub const I32: u8 = 2;
pub const U32: u8 = 3;
pub const I64: u8 = 4;
pub const U64: u8 = 5;
pub const F64: u8 = 6;
pub const POINTER: u8 = 7;
pub const TEXT: u8 = 8;
pub const BYTES: u8 = 9;
pub const RECORDS: u8 = 11;
pub const COMPRESS: u8 = 76;

const MOST_ITEMS: u32 = 10_000_000;
const MOST_DEPTH: usize = 64;

/// The bytes of one entry in a lent table.
pub const ENTRY_BYTES: usize = 48;

/// What a table has of a record, in six numbers of eight bytes: its type; where its name begins, and how many units of
/// it are kept; where its value begins, and how many bytes that has; the number of its level's entry plus one, or 0.
#[derive(Clone, Copy, Debug, Default, PartialEq, Eq)]
pub struct Entry {
    pub kind: u64,
    pub name: u64,
    pub units: u64,
    pub value: u64,
    pub size: u64,
    pub parent: u64,
}

impl Entry {
    fn numbers(&self) -> [u64; 6] {
        [
            self.kind,
            self.name,
            self.units,
            self.value,
            self.size,
            self.parent,
        ]
    }
}

/// How many entries a lent table holds.
pub fn room(table: &[u8]) -> usize {
    table.len() / ENTRY_BYTES
}

/// Writes the entries into a lent table that has room for them.
pub fn write(entries: &[Entry], table: &mut [u8]) {
    for (entry, place) in entries.iter().zip(table.chunks_exact_mut(ENTRY_BYTES)) {
        for (i, number) in entry.numbers().into_iter().enumerate() {
            put_u64(place, 8 * i, number);
        }
    }
}

/// The entries that stand in a table, up to its first empty one.
pub fn written(table: &[u8]) -> Vec<Entry> {
    let mut entries = Vec::new();
    for place in table.chunks_exact(ENTRY_BYTES) {
        let number = |i: usize| u64_at(place, 8 * i).unwrap_or(0);
        if number(0) == 0 {
            break;
        }
        entries.push(Entry {
            kind: number(0),
            name: number(1),
            units: number(2),
            value: number(3),
            size: number(4),
            parent: number(5),
        });
    }
    entries
}

/// The entries of the tree that is this part of the file, with a table of `room` entries, all free. The tree is one
/// record with what is in it; what lies behind that record is ignored.
pub fn read(file: &[u8], data: Range, room: usize) -> Result<Vec<Entry>, u32> {
    let start = data.start as usize;
    let end = start + data.len as usize;
    let mut reading = Reading {
        bytes: &file[..end],
        entries: Vec::new(),
        room,
    };
    reading.records(start, end, 1, 0, 0)?;
    Ok(reading.entries)
}

struct Reading<'a> {
    bytes: &'a [u8],
    entries: Vec<Entry>,
    room: usize,
}

impl Reading<'_> {
    /// Up to `count` records between two places. They end, without a fault, where fewer than two bytes are left.
    fn records(
        &mut self,
        start: usize,
        end: usize,
        count: u32,
        depth: usize,
        parent: u64,
    ) -> Result<(), u32> {
        let mut at = start;
        for _ in 0..count {
            if end - at < 2 {
                break;
            }
            at = self.record(at, end, depth, parent)?;
        }
        Ok(())
    }

    /// One record, and where it ends. A packed one (8) and the types 0 and 10 (7) are told before the name (6), types
    /// that are not known (7) behind it. Then the record takes an entry (18), and its value is read.
    fn record(&mut self, at: usize, end: usize, depth: usize, parent: u64) -> Result<usize, u32> {
        let kind = self.bytes[at];
        let units = self.bytes[at + 1] as usize;
        if kind == COMPRESS {
            return Err(PACKED);
        }
        if kind == 0 || kind == 10 {
            return Err(KIND);
        }
        let value = at + 2 + 2 * units;
        if value > end {
            return Err(CUT);
        }
        if kind > RECORDS {
            return Err(KIND);
        }
        if self.entries.len() == self.room {
            return Err(TABLE);
        }
        self.entries.push(Entry {
            kind: kind as u64,
            name: at as u64 + 2,
            units: units.saturating_sub(1) as u64,
            value: value as u64,
            size: 0,
            parent,
        });
        self.value(kind, at, value, end, depth)
    }

    /// The value at `at` of the newest entry, whose record begins at `record`.
    fn value(
        &mut self,
        kind: u8,
        record: usize,
        at: usize,
        end: usize,
        depth: usize,
    ) -> Result<usize, u32> {
        match kind {
            FLAG => self.fixed(at, end, 1),
            I32 | U32 => self.fixed(at, end, 4),
            I64 | U64 | F64 | POINTER => self.fixed(at, end, 8),
            TEXT => Ok(self.text(at, end)),
            BYTES => self.sized(at, end),
            _ => self.level(record, at, end, depth),
        }
    }

    /// Where the newest entry's value lies.
    fn placed(&mut self, at: usize, size: usize) {
        if let Some(entry) = self.entries.last_mut() {
            entry.value = at as u64;
            entry.size = size as u64;
        }
    }

    fn fixed(&mut self, at: usize, end: usize, size: usize) -> Result<usize, u32> {
        if end - at < size {
            return Err(CUT);
        }
        self.placed(at, size);
        Ok(at + size)
    }

    /// Text: the units before the first zero unit, which is passed over, or else as many whole units as there are.
    fn text(&mut self, start: usize, end: usize) -> usize {
        let mut at = start;
        while end - at >= 2 {
            if u16_at(self.bytes, at) == Some(0) {
                self.placed(start, at - start);
                return at + 2;
            }
            at += 2;
        }
        self.placed(start, at - start);
        at
    }

    /// Bytes, behind eight that say how many.
    fn sized(&mut self, at: usize, end: usize) -> Result<usize, u32> {
        let size = self.word(at, end)?;
        let start = at + 8;
        if size > (end - start) as u64 {
            return Err(CUT);
        }
        self.placed(start, size as usize);
        Ok(start + size as usize)
    }

    fn word(&self, at: usize, end: usize) -> Result<u64, u32> {
        u64_at(&self.bytes[..end], at).ok_or(CUT)
    }

    /// A level: four bytes that say how many items it has, eight that say how far behind the start of its record the
    /// children end, these, and eight bytes more for each item, which are not read. Too many items and too small a
    /// length are 10; a number or children past the end are 6; then come the depth (9), the children's own faults and
    /// the bytes behind them (6).
    fn level(&mut self, record: usize, at: usize, end: usize, depth: usize) -> Result<usize, u32> {
        let count = u32_at(&self.bytes[..end], at).ok_or(CUT)?;
        if count > MOST_ITEMS {
            return Err(LEVEL);
        }
        let length = self.word(at + 4, end)?;
        let start = at + 12;
        let header = (start - record) as u64;
        let size = length.checked_sub(header).ok_or(LEVEL)?;
        if size > (end - start) as u64 {
            return Err(CUT);
        }
        if depth == MOST_DEPTH {
            return Err(DEEP);
        }
        let children_end = start + size as usize;
        self.placed(start, size as usize);
        let parent = self.entries.len() as u64;
        self.records(start, children_end, count, depth + 1, parent)?;
        let skipped = 8 * count as usize;
        if end - children_end < skipped {
            return Err(CUT);
        }
        Ok(children_end + skipped)
    }
}

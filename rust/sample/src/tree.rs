//! Records of a tree. What a level says of itself (count, length, bytes to skip) can be said wrongly on purpose.

pub const FLAG: u8 = 1;
pub const I32: u8 = 2;
pub const U32: u8 = 3;
pub const I64: u8 = 4;
pub const U64: u8 = 5;
pub const F64: u8 = 6;
pub const POINTER: u8 = 7;
pub const TEXT: u8 = 8;
pub const BYTES: u8 = 9;
pub const LEVEL: u8 = 11;
pub const PACKED: u8 = 76;

/// A count that is said and not true has at most so many numbers after the children, unless these are said too.
const MOST_SKIPPED: u32 = 1000;

/// One record: its type, the units of its name as they are written, and its value.
#[derive(Clone, Debug)]
pub struct Record {
    pub kind: u8,
    pub name: Vec<u16>,
    pub value: Value,
}

#[derive(Clone, Debug)]
pub enum Value {
    Raw(Vec<u8>),
    Level(Level),
}

/// `None` is what is true of the records.
#[derive(Clone, Debug, Default)]
pub struct Level {
    pub records: Vec<Record>,
    pub count: Option<u32>,
    pub length: Option<u64>,
    pub skip: Option<usize>,
}

/// A name's units: its letters and a zero; no units for no letters.
pub fn named(name: &str) -> Vec<u16> {
    if name.is_empty() {
        return Vec::new();
    }
    name.encode_utf16().chain([0]).collect()
}

pub fn raw(kind: u8, name: &str, value: &[u8]) -> Record {
    Record {
        kind,
        name: named(name),
        value: Value::Raw(value.to_vec()),
    }
}

pub fn flag(name: &str, value: u8) -> Record {
    raw(FLAG, name, &[value])
}

pub fn i32(name: &str, value: i32) -> Record {
    raw(I32, name, &value.to_le_bytes())
}

pub fn u32(name: &str, value: u32) -> Record {
    raw(U32, name, &value.to_le_bytes())
}

pub fn i64(name: &str, value: i64) -> Record {
    raw(I64, name, &value.to_le_bytes())
}

pub fn u64(name: &str, value: u64) -> Record {
    raw(U64, name, &value.to_le_bytes())
}

pub fn f64(name: &str, value: f64) -> Record {
    double_bits(name, value.to_bits())
}

pub fn double_bits(name: &str, bits: u64) -> Record {
    raw(F64, name, &bits.to_le_bytes())
}

pub fn pointer(name: &str, value: u64) -> Record {
    raw(POINTER, name, &value.to_le_bytes())
}

pub fn text(name: &str, value: &str) -> Record {
    let units: Vec<u16> = value.encode_utf16().collect();
    text_units(name, &units, true)
}

/// A text of any units, with its zero or without.
pub fn text_units(name: &str, units: &[u16], ended: bool) -> Record {
    let end = ended.then_some(0);
    let all = units.iter().copied().chain(end);
    let bytes: Vec<u8> = all.flat_map(u16::to_le_bytes).collect();
    raw(TEXT, name, &bytes)
}

pub fn bytes(name: &str, value: &[u8]) -> Record {
    let mut sized = (value.len() as u64).to_le_bytes().to_vec();
    sized.extend_from_slice(value);
    raw(BYTES, name, &sized)
}

pub fn level(name: &str, records: Vec<Record>) -> Record {
    Record {
        kind: LEVEL,
        name: named(name),
        value: Value::Level(Level {
            records,
            ..Level::default()
        }),
    }
}

/// A level of unnamed records, which reads as a list.
pub fn list(name: &str, records: Vec<Record>) -> Record {
    level(name, records.into_iter().map(unnamed).collect())
}

pub fn unnamed(record: Record) -> Record {
    Record {
        name: Vec::new(),
        ..record
    }
}

/// A packed record: ten bytes that say how, then what is packed.
pub fn packed(bytes: &[u8]) -> Record {
    raw(PACKED, "", bytes)
}

impl Record {
    /// The record's bytes. A name has at most 255 units; more are cut.
    pub fn encode(&self) -> Vec<u8> {
        let mut out = Vec::new();
        self.write(&mut out);
        out
    }

    fn write(&self, out: &mut Vec<u8>) {
        let start = out.len();
        let name = &self.name[..self.name.len().min(255)];
        out.push(self.kind);
        out.push(name.len() as u8);
        out.extend(name.iter().flat_map(|unit| unit.to_le_bytes()));
        match &self.value {
            Value::Raw(bytes) => out.extend_from_slice(bytes),
            Value::Level(level) => level.write(start, out),
        }
    }

    pub fn level_mut(&mut self) -> Option<&mut Level> {
        match &mut self.value {
            Value::Level(level) => Some(level),
            Value::Raw(_) => None,
        }
    }
}

impl Level {
    /// Count, length, children and what is skipped after them; the length counts from the record's start.
    fn write(&self, record_start: usize, out: &mut Vec<u8>) {
        let count = self.count.unwrap_or(self.records.len() as u32);
        out.extend_from_slice(&count.to_le_bytes());
        let length_place = out.len();
        out.extend_from_slice(&[0; 8]);
        let mut places = Vec::new();
        for record in &self.records {
            places.push((out.len() - record_start) as u64);
            record.write(out);
        }
        let length = self.length.unwrap_or((out.len() - record_start) as u64);
        out[length_place..length_place + 8].copy_from_slice(&length.to_le_bytes());
        let mut table: Vec<u8> = places.iter().flat_map(|p| p.to_le_bytes()).collect();
        let skipped = self
            .count
            .map_or(places.len(), |c| c.min(MOST_SKIPPED) as usize);
        let skip = self.skip.unwrap_or(8 * skipped);
        table.resize(skip, 0);
        out.extend_from_slice(&table);
    }
}

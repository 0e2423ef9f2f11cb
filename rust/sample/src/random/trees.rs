//! Random trees of any records: all types, odd names, repeats, lists in lists, and levels deep below each other.

use super::numbers::odd;
use crate::rng::Rng;
use crate::tree::{bytes, flag, level, list, packed, raw, text_units, u32, unnamed, Record, LEVEL};

/// Names that a tree of records repeats now and then.
pub const NAMES: [&str; 12] = [
    "",
    "",
    "",
    "a",
    "b",
    "uiCount",
    "eType",
    "Points",
    "i0000000000",
    "ä",
    "SLxExperiment",
    "uLoopPars",
];

pub fn random(rng: &mut Rng) -> Record {
    match rng.below(12) {
        0 | 1 => deep(rng),
        2 | 3 => lists(rng, 4),
        4 => wide(rng),
        _ => {
            let mut left = rng.between(1, 30);
            any(rng, 0, &mut left)
        }
    }
}

/// A level of many records, of names that come again now and then and share their beginnings.
fn wide(rng: &mut Rng) -> Record {
    let count = rng.between(40, 200);
    let alphabet = rng.between(1, 300);
    let start = rng.pick(&["", "n", "uiValueOfTheField"]);
    let record = |i: u64, rng: &mut Rng| {
        let name = format!("{start}{}", rng.below(alphabet));
        if rng.one_in(20) {
            odd(rng, &name)
        } else {
            u32(&name, i as u32)
        }
    };
    let records = (0..count).map(|i| record(i, rng)).collect();
    level("wide", records)
}

/// Levels below each other, around the depth of 64; innermost a number, an empty level or nothing.
pub fn deep(rng: &mut Rng) -> Record {
    let mut inner = match rng.below(5) {
        0 => u32("x", 1),
        1 => level("", Vec::new()),
        2 => cut_level(rng, "x"),
        _ => level("x", vec![u32("", 1)]),
    };
    for _ in 0..rng.between(61, 66) {
        let name = if rng.one_in(4) { "" } else { "n" };
        inner = level(name, vec![inner]);
    }
    inner
}

/// Unnamed values and lists of them, in each other.
fn lists(rng: &mut Rng, depth: u32) -> Record {
    let mut records = Vec::new();
    for i in 0..rng.between(0, 4) {
        if depth > 0 && rng.one_in(2) {
            records.push(unnamed(lists(rng, depth - 1)));
        } else {
            records.push(u32("", i as u32));
        }
        if rng.one_in(8) {
            records.push(u32("named", i as u32));
        }
    }
    level("list", records)
}

/// Any record. Its name may end in any unit and hold any.
fn any(rng: &mut Rng, depth: u32, left: &mut u64) -> Record {
    *left = left.saturating_sub(1);
    let name = rng.pick(&NAMES);
    let mut record = match rng.below(12) {
        0..=3 if depth < 6 && *left > 0 => {
            let count = rng.between(0, (*left).min(6));
            let records = (0..count).map(|_| any(rng, depth + 1, left)).collect();
            level(name, records)
        }
        4 => text(rng, name),
        5 => {
            let len = rng.place(6);
            bytes(name, &rng.bytes(len))
        }
        6 => flag(name, rng.word() as u8),
        7 if rng.one_in(8) => rare(rng, name),
        8 => list(name, vec![u32("", 1), odd(rng, "")]),
        _ => odd(rng, name),
    };
    strange_name(rng, &mut record);
    record
}

fn text(rng: &mut Rng, name: &str) -> Record {
    let len = rng.place(5);
    let units: Vec<u16> = (0..len)
        .map(|_| rng.pick(&[0x41, 0x7A, 0xD834, 0xDD1E, 0xDC00, 0xFFFD, 0x20AC, 1]))
        .collect();
    let ended = !rng.one_in(6);
    text_units(name, &units, ended)
}

/// A level that is cut in its count, its length or its children.
fn cut_level(rng: &mut Rng, name: &str) -> Record {
    let count = rng.pick(&[0, 1, 10_000_000, 10_000_001, u32::MAX]);
    let length = rng.pick(&[0, 13, 40, 5000, u64::MAX]);
    let mut value = count.to_le_bytes().to_vec();
    value.extend_from_slice(&length.to_le_bytes());
    value.truncate(rng.pick(&[3, 4, 11, 12, 12]));
    raw(LEVEL, name, &value)
}

/// Types that there are not, and packed records with and without the ten bytes after them.
fn rare(rng: &mut Rng, name: &str) -> Record {
    match rng.below(6) {
        0 => raw(rng.pick(&[0, 10]), name, &[0; 4]),
        1 => raw(rng.pick(&[12, 13, 75, 77, 255]), name, &[0; 4]),
        2 => {
            let len = rng.place(24);
            packed(&rng.bytes(len))
        }
        3 => deep(rng),
        4 => cut_level(rng, name),
        _ => raw(9, name, &(rng.pick(&[1, 100, u64::MAX])).to_le_bytes()),
    }
}

/// Now and then another last unit, a surrogate, a zero inside, or a name of one unit.
pub fn strange_name(rng: &mut Rng, record: &mut Record) {
    match rng.below(40) {
        0 => {
            if let Some(last) = record.name.last_mut() {
                *last = 0x21;
            }
        }
        1 => {
            let unit = rng.pick(&[0xD800, 0xDC00, 0xFFFD, 0]);
            record.name.insert(0, unit);
        }
        2 => record.name = vec![rng.pick(&[0, 0x41, 0xD800])],
        3 => record.name = vec![0xD834, rng.pick(&[0xDD1E, 0x61]), 0],
        4 if rng.one_in(6) => record.name = vec![0x61; 255],
        5 => record.name = vec![rng.pick(&[0xD800, 0xDBFF, 0xDFFF, 0xFFFD]), 0],
        _ => {}
    }
}

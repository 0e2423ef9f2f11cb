//! A table of entries held against the file's bytes, entry by entry: every position, length and parent.
//!
//! The original keeps no positions, so what a table says of them is judged here by the bytes that stand there.

use second::bytes::{u16_at, u64_at};
use second::trees::{Entry, BYTES, F64, FLAG, I32, I64, POINTER, RECORDS, TEXT, U32, U64};

/// What is wrong with a table of these entries, if anything.
pub fn fault(file: &[u8], entries: &[Entry]) -> Option<String> {
    for (i, entry) in entries.iter().enumerate() {
        let told = |what: &str| Some(format!("entry {i}: {what}: {entry:?}"));
        if !record_right(file, entry) {
            return told("another record");
        }
        if !value_right(file, entry) {
            return told("another value");
        }
        if !place_right(entries, i) {
            return told("another place");
        }
    }
    None
}

/// Two bytes before the name stand the type and the units of the whole name.
fn record_right(file: &[u8], entry: &Entry) -> bool {
    let start = entry.name.saturating_sub(2) as usize;
    let Some(&[kind, units]) = file.get(start..start + 2) else {
        return false;
    };
    entry.kind == kind as u64 && entry.units == (units as u64).saturating_sub(1)
}

/// Where the name ends in the file, its last unit included.
fn name_end(file: &[u8], entry: &Entry) -> u64 {
    entry.name + 2 * file[entry.name as usize - 1] as u64
}

fn value_right(file: &[u8], entry: &Entry) -> bool {
    let after = entry.value.wrapping_sub(name_end(file, entry));
    let said = u64_at(file, (entry.value as usize).saturating_sub(8));
    let size = entry.size;
    match entry.kind as u8 {
        FLAG => (after, size) == (0, 1),
        I32 | U32 => (after, size) == (0, 4),
        I64 | U64 | F64 | POINTER => (after, size) == (0, 8),
        TEXT => after == 0 && text_right(file, entry),
        BYTES => after == 8 && said == Some(size),
        RECORDS => after == 12 && said == Some(size + entry.value + 2 - entry.name),
        _ => false,
    }
}

/// A text has whole units, none of which is zero.
fn text_right(file: &[u8], entry: &Entry) -> bool {
    let units = (0..entry.size as usize / 2).map(|i| u16_at(file, entry.value as usize + 2 * i));
    entry.size % 2 == 0 && units.into_iter().all(|unit| unit.is_some_and(|u| u != 0))
}

/// A record lies in its parent, after the parent's header and after the entry before it.
fn place_right(entries: &[Entry], i: usize) -> bool {
    let entry = &entries[i];
    let end = entry.value + entry.size;
    let Some(parent) = entry.parent.checked_sub(1) else {
        return i == 0;
    };
    let Some(parent) = entries[..i].get(parent as usize) else {
        return false;
    };
    let inside = parent.value + 2 <= entry.name && end <= parent.value + parent.size;
    inside && parent.kind == RECORDS as u64 && entry.name > entries[i - 1].name
}

//! Damages: of a tree's records, of bytes, of the map, of a whole file.

use super::numbers::odd;
use super::trees;
use crate::file::{MapEntry, Nd2, MAP_END, MAP_NAME};
use crate::rng::Rng;
use crate::tree::{Level, Record, Value};

/// Damages one place of a tree, most trees not at all.
pub fn tree(rng: &mut Rng, record: &mut Record) {
    if rng.one_in(60) {
        trees::strange_name(rng, record);
    }
    if !rng.one_in(4) {
        return;
    }
    let Some(level) = record.level_mut() else {
        return;
    };
    if !level.records.is_empty() && !rng.one_in(3) {
        let at = rng.place(level.records.len());
        if let Value::Level(_) = level.records[at].value {
            return descend(rng, &mut level.records[at]);
        }
    }
    self::level(rng, level);
}

/// As `tree`, but in any case.
fn descend(rng: &mut Rng, record: &mut Record) {
    let Some(level) = record.level_mut() else {
        return;
    };
    if !level.records.is_empty() && !rng.one_in(3) {
        let at = rng.place(level.records.len());
        if let Value::Level(_) = level.records[at].value {
            return descend(rng, &mut level.records[at]);
        }
    }
    self::level(rng, level);
}

/// One change of a level: a record gone, repeated, replaced or renamed, something put in, or a wrong count or length.
fn level(rng: &mut Rng, level: &mut Level) {
    let count = level.records.len();
    let at = rng.place(count.max(1));
    match rng.below(16) {
        0 | 1 if count > 0 => {
            level.records.remove(at);
        }
        2 if count > 0 => {
            let again = level.records[at].clone();
            level.records.push(again);
        }
        3 | 4 if count > 0 => {
            let mut other = odd(rng, "x");
            other.name = level.records[at].name.clone();
            let place = rng.pick(&[at, count - 1]);
            level.records.insert(place + 1, other);
        }
        5 if count > 0 => trees::strange_name(rng, &mut level.records[at]),
        6 if count > 0 => level.records[at].name.clear(),
        7 => level.records.iter_mut().for_each(|r| r.name.clear()),
        8 => level.records.insert(at.min(count), trees::random(rng)),
        9 => level.count = Some(rng.pick(&[0, 1, 2, 10_000_000, 10_000_001, u32::MAX])),
        10 => level.count = Some(count as u32 + rng.between(1, 3) as u32),
        11 => level.length = Some(rng.pick(&[0, 13, 14, 15, 60, 1000, u64::MAX, 1 << 63])),
        12 => level.skip = Some(rng.place(8 * count + 9)),
        13 => level.records.insert(at.min(count), trees::deep(rng)),
        14 if count > 0 => wrong_kind(rng, &mut level.records[at]),
        _ => level.records.truncate(at),
    }
}

/// A record of another type with the same bytes, of types that there are not, and packed ones.
fn wrong_kind(rng: &mut Rng, record: &mut Record) {
    let other = rng.between(1, 11) as u8;
    record.kind = rng.pick(&[0, 10, 12, 76, 76, 255, other, other, other]);
}

/// A few bytes changed, cut off, put in or put at the end.
pub fn bytes(rng: &mut Rng, bytes: &mut Vec<u8>) {
    for _ in 0..rng.pick(&[1, 1, 1, 2, 3, 8]) {
        if bytes.is_empty() {
            return;
        }
        let at = rng.place(bytes.len());
        match rng.below(12) {
            0 => bytes.truncate(at),
            1 => bytes.insert(at, rng.word() as u8),
            2 => {
                bytes.remove(at);
            }
            3 => bytes.extend_from_slice(&[1, 0, 1]),
            4 => bytes[at] = rng.pick(&[0, 1, 10, 11, 12, 76, 255]),
            5 => bytes[at] = bytes[at].wrapping_add(rng.pick(&[1, 255])),
            6 => bytes[at] = rng.word() as u8,
            _ => bytes[at] ^= 1 << rng.below(8),
        }
    }
}

/// Map entries gone, repeated, pointing elsewhere, with any size.
pub fn entries(rng: &mut Rng, entries: &mut Vec<MapEntry>) {
    if entries.is_empty() || !rng.one_in(3) {
        return;
    }
    let at = rng.place(entries.len());
    let other = rng.place(entries.len());
    let offset = entries[other].offset;
    match rng.below(8) {
        0 => {
            entries.remove(at);
        }
        1 => {
            let mut again = entries[at].clone();
            again.offset = offset;
            entries.push(again);
        }
        2 => {
            let mut again = entries[at].clone();
            again.offset = offset;
            entries.insert(0, again);
        }
        3 => entries[at].offset = offset,
        4 => entries[at].offset = strange_offset(rng, offset),
        5 => entries[at].size = rng.word(),
        6 => entries[at].name = entries[other].name.clone(),
        _ => entries.push(MapEntry {
            name: strange_name(rng),
            offset,
            size: offset,
        }),
    }
}

fn strange_offset(rng: &mut Rng, offset: u64) -> u64 {
    match rng.below(4) {
        0 => offset.saturating_add(1),
        1 => offset.saturating_sub(1),
        2 => rng.below(3000),
        _ => rng.pick(&[u64::MAX, u64::MAX - 15, u64::MAX - 16, 1 << 63, 1 << 32]),
    }
}

fn strange_name(rng: &mut Rng) -> Vec<u8> {
    let names: [&[u8]; 5] = [
        b"!",
        b"ImageDataSeq|00!",
        b"ImageDataSeq|1",
        b"ImageDataSeq|-1!",
        b"ND2 CHUNK MAP SIGNATURE 0000002!",
    ];
    rng.pick(&names).to_vec()
}

/// The file with its map, most often damaged in one place.
pub fn map(rng: &mut Rng, file: Nd2) -> Vec<u8> {
    let mut data = file.map();
    match rng.below(16) {
        0 => data.truncate(data.len() - MAP_END.len()),
        1 => data.truncate(rng.place(data.len())),
        2 => bytes(rng, &mut data),
        3 => data.extend_from_slice(b"after the end"),
        4 => {
            let mut name = MAP_NAME.to_vec();
            name.extend_from_slice(b" more");
            return file.finish_with(&name, &data);
        }
        5 => return file.finish_with(&MAP_NAME[..31], &data),
        6 => return relocated(rng, file.finish()),
        7 => return lengthened(rng, file),
        _ => {}
    }
    file.finish_with(MAP_NAME, &data)
}

/// Another place of the map in the locator.
fn relocated(rng: &mut Rng, mut bytes: Vec<u8>) -> Vec<u8> {
    let end = bytes.len();
    let old: [u8; 8] = bytes[end - 8..].try_into().unwrap_or_default();
    let place = strange_offset(rng, u64::from_le_bytes(old));
    bytes[end - 8..].copy_from_slice(&place.to_le_bytes());
    bytes
}

/// Another name or data length in the header of one chunk, the map's included.
fn lengthened(rng: &mut Rng, file: Nd2) -> Vec<u8> {
    let map_place = file.bytes.len();
    let entry = rng.place(file.entries.len() + 1);
    let listed = file.entries.get(entry).map(|e| e.offset as usize);
    let whole = |p: &usize| *p <= map_place.saturating_sub(16);
    let place = listed.filter(whole).unwrap_or(map_place);
    let mut bytes = file.finish();
    let rest = (bytes.len() - place - 16) as u64;
    if rng.one_in(3) {
        let len = rng.pick(&[
            0,
            1,
            31,
            33,
            40,
            5000,
            u32::MAX,
            rest as u32,
            rest as u32 + 1,
        ]);
        bytes[place + 4..place + 8].copy_from_slice(&len.to_le_bytes());
    }
    if rng.one_in(3) {
        let len = rng.pick(&[0, 1, 2, 7, 8, 9, 50, 5000, u64::MAX, u64::MAX - 60, 1 << 63]);
        bytes[place + 8..place + 16].copy_from_slice(&len.to_le_bytes());
    } else {
        to_the_end(rng, &mut bytes, place);
    }
    bytes
}

/// Lets a chunk's data reach to the end of the file, or one byte less or more.
fn to_the_end(rng: &mut Rng, bytes: &mut [u8], place: usize) {
    let name: [u8; 4] = bytes[place + 4..place + 8].try_into().unwrap_or_default();
    let rest = bytes.len() as u64 - place as u64 - 16;
    let data = rest.saturating_sub(u32::from_le_bytes(name) as u64);
    let len = (data + rng.between(0, 2)).saturating_sub(1);
    bytes[place + 8..place + 16].copy_from_slice(&len.to_le_bytes());
}

/// The file cut at its end, or bytes put after it.
pub fn cut(rng: &mut Rng, bytes: &mut Vec<u8>) {
    match rng.below(4) {
        0 => bytes.push(0),
        1 => bytes.truncate(rng.place(bytes.len() + 1)),
        2 => bytes.truncate(rng.place(60).min(bytes.len())),
        _ => {
            let len = bytes.len() - rng.place(bytes.len().min(50) + 1);
            bytes.truncate(len);
        }
    }
}

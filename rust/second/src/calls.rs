//! Document 01, The calls. A call that refuses leaves samples and register as they were lent, and zeros in table and
//! channel records.

use crate::attributes;
use crate::bytes::{put_u32, put_u64, u32_at};
use crate::calibration::{self, Calibration};
use crate::channels::{self, Channel};
use crate::chunks::{part, MARK};
use crate::loops;
use crate::map::{self, Map};
use crate::refusal::*;
use crate::summary::Summary;
use crate::trees::{self, Entry};
use crate::types::{Axis, Range};
use crate::values::{self, Level};

const LEGACY_MARK: u32 = 0x0C00_0000;
const MOST_PLANE: u128 = 4_294_967_296;
const PREFIX: u64 = 8;
const RECORD_BYTES: usize = 24;

/// The entries of the tree that the map has under a name: 11, the chunk's 4 and 29, the tree's own.
fn named_tree(file: &[u8], map: &Map, name: &[u8], room: usize) -> Result<Vec<Entry>, u32> {
    let data = map.chunk(file, name, MISSING)?;
    trees::read(file, data, room)
}

pub(crate) fn named_root(file: &[u8], map: &Map, name: &[u8], room: usize) -> Result<Level, u32> {
    let entries = named_tree(file, map, name, room)?;
    Ok(values::root(file, &entries))
}

/// The open call: a summary, or the first refusal. The table is zeroed in both cases.
pub fn open(file: &[u8], table: &mut [u8]) -> Result<Summary, u32> {
    table.fill(0);
    opened(file, trees::room(table))
}

/// What opening gives with a table of `room` entries. It judges the file's first mark, the locator, the map's chunk,
/// the map, the attributes, the experiment and its loops, the bytes of a plane (14), and then reads the calibration.
/// The channels are not looked at.
pub fn opened(file: &[u8], room: usize) -> Result<Summary, u32> {
    match u32_at(file, 0) {
        Some(MARK) => {}
        Some(LEGACY_MARK) => return Err(LEGACY),
        _ => return Err(FOREIGN),
    }
    let place = map::place(file)?;
    let map = Map::read(part(file, place).ok_or(CHUNK)?)?;
    let sizes = attributes::read(&named_root(file, &map, attributes::CHUNK_NAME, room)?)?;
    let root = named_root(file, &map, loops::CHUNK_NAME, room)?;
    let experiment = loops::experiment(&root)?;
    let loops = loops::read(experiment)?;
    if !sizes.plane_holds() {
        return Err(FRAME_SHAPE);
    }
    let calibration = calibrated(file, &map, experiment, room)?;
    Ok(Summary::new(place, sizes, &loops, calibration))
}

/// What the file says of the calibration. Only 18 is a refusal here. A chunk of another name is as good as none, a
/// packed tree in it or not.
fn calibrated(file: &[u8], map: &Map, experiment: &Level, room: usize) -> Result<Calibration, u32> {
    match named_root(file, map, calibration::CHUNK_NAME, room) {
        Ok(root) => Ok(calibration::read(&root, experiment)),
        Err(TABLE) => Err(TABLE),
        Err(PACKED) => Ok(calibration::unstated(calibration::PACKED_TREE)),
        Err(_) => Ok(calibration::unstated(calibration::NONE)),
    }
}

/// 20 and 5: the map of a summary.
pub(crate) fn map_of<'a>(file: &'a [u8], summary: &Summary) -> Result<Map<'a>, u32> {
    if !summary.sound(file) {
        return Err(SUMMARY);
    }
    Map::read(part(file, summary.map).ok_or(SUMMARY)?)
}

pub(crate) fn number(answer: Result<(), u32>) -> u32 {
    answer.err().unwrap_or(0)
}

/// The plane call: the samples of component c in the frame of a point.
#[allow(clippy::too_many_arguments)]
pub fn plane(
    file: &[u8],
    summary: &Summary,
    scene: u64,
    t: u64,
    c: u64,
    z: u64,
    samples: &mut [u8],
) -> u32 {
    let frame = frame_of(file, summary, [scene, t, c, z]);
    number(frame.and_then(|frame| {
        fits(plane_bytes(summary)?, samples)?;
        copy(frame, summary, c, samples);
        Ok(())
    }))
}

/// 25, the last refusal of a call that writes so many bytes.
pub(crate) fn fits(bytes: u128, lent: &[u8]) -> Result<(), u32> {
    if bytes > lent.len() as u128 {
        return Err(BUFFER);
    }
    Ok(())
}

/// The bytes of a plane, up to the ceiling: 22.
pub(crate) fn plane_bytes(s: &Summary) -> Result<u128, u32> {
    let bytes = s.attributes().plane_bytes();
    bytes.filter(|&bytes| bytes <= MOST_PLANE).ok_or(CEILING)
}

/// A frame's bytes behind its first 8: 20, 21, 22, 5, 23, then 4 and 29 in the chunk's order, then 24.
pub(crate) fn frame_of<'a>(file: &'a [u8], s: &Summary, at: [u64; 4]) -> Result<&'a [u8], u32> {
    let [scene, t, _, z] = at;
    if !s.sound(file) {
        return Err(SUMMARY);
    }
    let counts = [
        s.count(Axis::P),
        s.count(Axis::T),
        s.components,
        s.count(Axis::Z),
    ];
    if at.iter().zip(&counts).any(|(index, count)| index >= count) {
        return Err(INDEX);
    }
    plane_bytes(s)?;
    let map = map_of(file, s)?;
    let name = format!("ImageDataSeq|{}!", s.frame(scene, t, z));
    frame_rows(file, s, map.chunk(file, name.as_bytes(), NO_FRAME)?)
}

/// 24 where the data has fewer than 8 bytes, or fewer than stride × height behind them. Where 64 bits do not count that
/// product, no data has as many.
fn frame_rows<'a>(file: &'a [u8], s: &Summary, data: Range) -> Result<&'a [u8], u32> {
    let len = data.len.checked_sub(PREFIX).ok_or(FRAME_SHORT)?;
    let rows = s.stride as u128 * s.height as u128;
    if rows > len as u128 {
        return Err(FRAME_SHORT);
    }
    let start = data.start + PREFIX;
    part(file, Range { start, len }).ok_or(FRAME_SHORT)
}

/// Copies the samples of component c, row after row and without gaps, each with its bytes as they are. What is lent
/// behind them stays.
pub(crate) fn copy(frame: &[u8], s: &Summary, c: u64, samples: &mut [u8]) {
    let size = s.attributes().sample_bytes() as usize;
    let step = s.components as usize * size;
    let first = c as usize * size;
    let width = s.width as usize;
    let rows = frame
        .chunks_exact(s.stride as usize)
        .take(s.height as usize);
    for (row, out) in rows.zip(samples.chunks_exact_mut(width * size)) {
        for x in 0..width {
            let at = x * step + first;
            out[x * size..(x + 1) * size].copy_from_slice(&row[at..at + size]);
        }
    }
}

/// The tree call: an entry in the table for each record of the named chunk's tree, in their order, and zeros behind
/// these.
pub fn tree(file: &[u8], summary: &Summary, name: &[u8], table: &mut [u8]) -> u32 {
    table.fill(0);
    let room = trees::room(table);
    let entries = map_of(file, summary).and_then(|map| named_tree(file, &map, name, room));
    number(entries.map(|entries| trees::write(&entries, table)))
}

/// The channels call: a record for each component in the lent row, empty ones behind these, and zeros in the table.
pub fn channels(file: &[u8], summary: &Summary, table: &mut [u8], row: &mut [Channel]) -> u32 {
    table.fill(0);
    row.fill(Channel::default());
    let records = channel_records(file, summary, trees::room(table), row.len());
    number(records.map(|records| row[..records.len()].copy_from_slice(&records)))
}

/// The records up to the last component that a plane covers: 20, 5, 19, 18. Where there is no whole tree to read, for
/// any other reason, there are none, and that is no refusal.
fn channel_records(
    file: &[u8],
    summary: &Summary,
    room: usize,
    lent: usize,
) -> Result<Vec<Channel>, u32> {
    let map = map_of(file, summary)?;
    if (lent as u64) < summary.components {
        return Err(CHANNEL_ROW);
    }
    match named_root(file, &map, channels::CHUNK_NAME, room) {
        Ok(root) => Ok(channels::read(&root, summary.components)),
        Err(TABLE) => Err(TABLE),
        Err(_) => Ok(Vec::new()),
    }
}

/// The tree of the channels, whatever table it takes.
pub fn channel_root(file: &[u8], summary: &Summary) -> Result<Level, u32> {
    let map = map_of(file, summary)?;
    named_root(file, &map, channels::CHUNK_NAME, usize::MAX)
}

/// The register call: a record for each frame, in the order of their numbers. 20, 5, 25, the last also where the
/// records have more bytes than 64 bits count: no buffer is that long.
pub fn register(file: &[u8], summary: &Summary, buffer: &mut [u8]) -> u32 {
    let map = match map_of(file, summary) {
        Ok(map) => map,
        Err(refused) => return refused,
    };
    let frames = summary.frames();
    if frames * RECORD_BYTES as u128 > buffer.len() as u128 {
        return BUFFER;
    }
    let index = map.index();
    let records = buffer.chunks_exact_mut(RECORD_BYTES);
    for (n, record) in (0..frames).zip(records) {
        let name = format!("ImageDataSeq|{n}!");
        put_u32(record, 0, summary.index(Axis::P, n) as u32);
        put_u32(record, 4, summary.index(Axis::T, n) as u32);
        put_u32(record, 8, summary.index(Axis::Z, n) as u32);
        let found = index.get(name.as_bytes());
        put_u32(record, 12, found.is_none() as u32);
        put_u64(record, 16, found.copied().unwrap_or(0));
    }
    0
}

/// The border call: an opening and a plane call in one. Whichever of the two refuses first gives the number.
#[allow(clippy::too_many_arguments)]
pub fn read_plane(
    file: &[u8],
    table: &mut [u8],
    scene: u64,
    t: u64,
    c: u64,
    z: u64,
    samples: &mut [u8],
) -> u32 {
    match open(file, table) {
        Ok(summary) => plane(file, &summary, scene, t, c, z, samples),
        Err(refused) => refused,
    }
}

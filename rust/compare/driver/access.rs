//! A child module of the original's reader, put after its text: it sees what is private there and tells it. Nothing
//! here decides an answer.

use super::*;
use crate::wire::Out;
use std::sync::Arc;

pub fn open(file: &Arc<Vec<u8>>) -> Result<Nd2Reader> {
    crate::io::lend(file);
    Nd2Reader::open(Path::new("lent.nd2"))
}

/// A refusal once more: its message is all that is told of it.
fn again<T>(answer: &Result<T>) -> Result<&T> {
    answer.as_ref().map_err(|error| match error {
        Error::OversizedAllocation { .. } => Error::Parse("oversized at opening".to_string()),
        error => Error::Parse(error.to_string()),
    })
}

pub fn tell_open(out: &mut Out, opened: &Result<Nd2Reader>) -> Result<()> {
    let reader = again(opened)?;
    out.u64(reader.loops.len() as u64);
    for one in &reader.loops {
        out.byte(match one.axis {
            Axis::T => 0,
            Axis::Z => 1,
            Axis::P => 2,
        });
        out.u64(one.count as u64);
    }
    for size in [
        reader.width,
        reader.width_bytes,
        reader.height,
        reader.comp,
        8 * reader.dtype.size_bytes(),
    ] {
        out.u64(size as u64);
    }
    tell_calibration(out, reader);
    Ok(())
}

/// Whether there is a pixel size, x and y; whether there is a z, and that; the notes.
fn tell_calibration(out: &mut Out, reader: &Nd2Reader) {
    let scene = &reader.meta.scenes[0];
    match &scene.px_size_um {
        None => out.byte(0),
        Some(size) => {
            out.byte(1);
            out.u64(size.x.to_bits() as u64);
            out.u64(size.y.to_bits() as u64);
            out.byte(size.z.is_some() as u8);
            out.u64(size.z.map_or(0, |z| z.to_bits()) as u64);
        }
    }
    out.u64(scene.notes.len() as u64);
    for note in &scene.notes {
        out.bytes(note.as_bytes());
    }
}

/// Where the map's data lies in the file.
pub fn tell_map_place(out: &mut Out, file: &[u8]) -> Result<()> {
    let tail = file
        .len()
        .checked_sub(8)
        .and_then(|start| file.get(start..));
    let tail = tail.ok_or_else(|| Error::Parse("no locator".to_string()))?;
    let offset = u64::from_le_bytes(tail.try_into().unwrap());
    let data = chunk_data(file, offset, Some(SIG_FILEMAP))?;
    out.u64((data.as_ptr() as usize - file.as_ptr() as usize) as u64);
    out.u64(data.len() as u64);
    Ok(())
}

pub fn tell_channels(out: &mut Out, file: &[u8], components: usize) -> Result<()> {
    let map = read_chunkmap(file)?;
    let channels = parse_channels(file, &map, components);
    out.u64(channels.len() as u64);
    for channel in channels {
        out.byte(channel.name.is_some() as u8);
        out.bytes(channel.name.unwrap_or_default().as_bytes());
        out.byte(channel.color.is_some() as u8);
        out.bytes(&channel.color.unwrap_or_default());
    }
    Ok(())
}

/// The samples as they lie in a file.
pub fn tell_plane(out: &mut Out, opened: &Result<Nd2Reader>, at: [u64; 4]) -> Result<()> {
    let reader = again(opened)?;
    let [scene, t, c, z] = at.map(|index| index as usize);
    let plane = reader.plane(scene, t, c, z)?;
    let bytes: Vec<u8> = match plane.data {
        PlaneBuf::U8(samples) => samples,
        PlaneBuf::U16(samples) => samples.iter().flat_map(|s| s.to_le_bytes()).collect(),
        PlaneBuf::I16(samples) => samples.iter().flat_map(|s| s.to_le_bytes()).collect(),
        PlaneBuf::F32(samples) => {
            let bits = samples.iter().map(|s| s.to_bits());
            bits.flat_map(|b| b.to_le_bytes()).collect()
        }
    };
    out.bytes(&bytes);
    Ok(())
}

pub fn tell_tree(out: &mut Out, file: &[u8], name: &[u8]) -> Result<()> {
    let map = read_chunkmap(file)?;
    let entry = map.get(name);
    let (offset, _) = entry.ok_or_else(|| Error::Parse("no such map entry".to_string()))?;
    let root = parse_clx_variant(chunk_data(file, *offset, Some(name))?)?;
    let mut told = Out::default();
    tell_level(&mut told, &root);
    out.bytes(&told.0);
    Ok(())
}

fn tell_level(out: &mut Out, level: &ClxMap) {
    out.byte(b'{');
    out.u64(level.entries.len() as u64);
    for (name, value) in &level.entries {
        out.bytes(name.as_bytes());
        tell_value(out, value);
    }
}

fn tell_whole(out: &mut Out, number: i128) {
    out.byte(b'w');
    out.0.extend_from_slice(&number.to_le_bytes());
}

fn tell_value(out: &mut Out, value: &ClxValue) {
    match value {
        ClxValue::Bool(flag) => {
            out.byte(b'f');
            out.byte(*flag as u8);
        }
        ClxValue::I32(number) => tell_whole(out, *number as i128),
        ClxValue::U32(number) => tell_whole(out, *number as i128),
        ClxValue::I64(number) => tell_whole(out, *number as i128),
        ClxValue::U64(number) => tell_whole(out, *number as i128),
        ClxValue::F64(number) => {
            out.byte(b'd');
            out.u64(number.to_bits());
        }
        ClxValue::Str(text) => {
            out.byte(b't');
            out.bytes(text.as_bytes());
        }
        ClxValue::Bytes(bytes) => {
            out.byte(b'b');
            out.bytes(bytes);
        }
        ClxValue::Level(level) => tell_level(out, level),
        ClxValue::List(list) => {
            out.byte(b'[');
            out.u64(list.len() as u64);
            list.iter().for_each(|value| tell_value(out, value));
        }
    }
}

/// Of each scene, t and z: the frame number, the three, whether the map has the frame, and the offset. No frames are
/// told where there are more than `most`.
pub fn tell_register(out: &mut Out, opened: &Result<Nd2Reader>, most: u64) -> Result<()> {
    let reader = again(opened)?;
    let (scenes, times, depths) = (reader.scenes, reader.dims.t, reader.dims.z);
    let frames = scenes as u128 * times as u128 * depths as u128;
    if frames > most as u128 {
        out.u64(0);
        return Ok(());
    }
    out.u64(frames as u64);
    for scene in 0..scenes {
        for t in 0..times {
            for z in 0..depths {
                let n = seq_index(&reader.loops, scene, t, z)?;
                let found = reader.map.get(format!("ImageDataSeq|{n}!").as_bytes());
                for number in [n, scene, t, z, found.is_none() as usize] {
                    out.u64(number as u64);
                }
                out.u64(found.map_or(0, |entry| entry.0));
            }
        }
    }
    Ok(())
}

//! A child module of the original's reader, put after its text: it sees what is private there.

use super::*;
use std::hint::black_box;

const RECORD_BYTES: usize = 24;

pub fn open(file: &'static [u8]) -> Result<Nd2Reader> {
    crate::io::lend(file);
    Nd2Reader::open(Path::new("lent.nd2"))
}

fn read(reader: &Nd2Reader, at: [u64; 4]) -> Result<Plane> {
    let [scene, t, c, z] = at.map(|index| index as usize);
    reader.plane(scene, t, c, z)
}

pub fn plane(reader: &Nd2Reader, at: [u64; 4]) -> usize {
    let plane = black_box(read(reader, at));
    plane.map_or(0, |plane| plane.data.len() * reader.dtype.size_bytes())
}

fn put(out: &mut [u8], samples: impl Iterator<Item = impl AsRef<[u8]>>) -> usize {
    let mut at = 0;
    for sample in samples {
        let sample = sample.as_ref();
        out[at..at + sample.len()].copy_from_slice(sample);
        at += sample.len();
    }
    at
}

pub fn plane_into(reader: &Nd2Reader, at: [u64; 4], out: &mut [u8]) -> usize {
    let Ok(plane) = read(reader, at) else {
        return 0;
    };
    match plane.data {
        PlaneBuf::U8(samples) => put(out, samples.iter().map(|s| s.to_le_bytes())),
        PlaneBuf::U16(samples) => put(out, samples.iter().map(|s| s.to_le_bytes())),
        PlaneBuf::I16(samples) => put(out, samples.iter().map(|s| s.to_le_bytes())),
        PlaneBuf::F32(samples) => put(out, samples.iter().map(|s| s.to_le_bytes())),
    }
}

fn frame(reader: &Nd2Reader, n: usize) -> [usize; 3] {
    let mut index = [0; 3];
    let mut rest = n;
    for one in reader.loops.iter().rev() {
        let place = match one.axis {
            Axis::P => 0,
            Axis::T => 1,
            Axis::Z => 2,
        };
        index[place] = rest % one.count;
        rest /= one.count;
    }
    index
}

pub fn register(reader: &Nd2Reader, out: &mut [u8]) -> usize {
    let frames: usize = reader.loops.iter().map(|one| one.count).product();
    for (n, record) in out.chunks_exact_mut(RECORD_BYTES).take(frames).enumerate() {
        let found = reader.map.get(format!("ImageDataSeq|{n}!").as_bytes());
        let [scene, t, z] = frame(reader, n);
        let words = [scene, t, z, found.is_none() as usize];
        put(
            record,
            words.iter().map(|word| (*word as u32).to_le_bytes()),
        );
        record[16..].copy_from_slice(&found.map_or(0, |entry| entry.0).to_le_bytes());
    }
    frames * RECORD_BYTES
}

//! Random files from a seed: good ones, and damaged ones of every kind that document 01 speaks of.

mod attributes;
mod damage;
mod doubles;
mod experiment;
mod metadata;
mod numbers;
mod trees;

use crate::file::{Nd2, LEGACY};
use crate::misnamed;
use crate::parts::{self, Sizes};
use crate::rng::Rng;
use crate::tree::Record;

pub use trees::NAMES;

/// The chunk that holds a tree which no reader needs.
pub const SPARE: &str = "CustomData|Spare!";

/// How much is wrong with a file.
#[derive(Clone, Copy, PartialEq, Eq)]
enum Care {
    /// Nothing on purpose.
    Good,
    /// Numbers, names and levels are odd here and there.
    Odd,
    /// Bytes are damaged.
    Broken,
}

/// The file of a seed.
pub fn file(seed: u64) -> Vec<u8> {
    let mut rng = Rng::new(seed);
    match rng.below(100) {
        0..=1 => scrap(&mut rng),
        2..=44 => assembled(&mut rng, Care::Good),
        45..=74 => assembled(&mut rng, Care::Odd),
        _ => assembled(&mut rng, Care::Broken),
    }
}

/// Hardly a file at all.
fn scrap(rng: &mut Rng) -> Vec<u8> {
    let len = rng.place(60);
    let mut bytes = rng.bytes(len);
    let mark = rng.pick(&[LEGACY, crate::file::MARK, 0, LEGACY + 1]);
    let start = mark.to_le_bytes();
    let shared = len.min(4);
    bytes[..shared].copy_from_slice(&start[..shared]);
    if rng.one_in(2) {
        bytes.extend_from_slice(crate::file::MAP_END);
        let offset = rng.pick(&[0, 1, 16, u64::MAX, u64::MAX - 15, 40]);
        bytes.extend_from_slice(&offset.to_le_bytes());
    }
    bytes
}

/// All parts of a file, each at random. What becomes of its doubles and of its chunks' names is drawn aside, so that nothing
/// else moves by it.
fn assembled(rng: &mut Rng, care: Care) -> Vec<u8> {
    let aside = &mut rng.aside();
    let names = &mut aside.aside();
    let doubles = doubles::random(aside);
    let (sizes, trees) = trees_of(rng, care);
    let mut file = Nd2::new();
    for (name, mut tree) in trees {
        if care != Care::Good {
            damage::tree(rng, &mut tree);
        }
        doubles::settle(aside, doubles, name, &mut tree);
        let mut data = tree.encode();
        if care == Care::Broken && rng.one_in(5) {
            damage::bytes(rng, &mut data);
        }
        file.add(name, &data);
    }
    frames(rng, care, sizes, &mut file);
    misnamed::random(names, &mut file);
    finished(rng, care, file)
}

/// The sizes of the frames and the trees: the two that are needed, and some of the others.
fn trees_of(rng: &mut Rng, care: Care) -> (Sizes, Vec<(&'static str, Record)>) {
    let (sizes, attributes) = attributes::random(rng, care);
    let mut trees = vec![(parts::ATTRIBUTES, attributes)];
    trees.push((parts::EXPERIMENT, experiment::random(rng, care)));
    if !rng.one_in(6) {
        trees.push((parts::CALIBRATION, metadata::calibration(rng, care)));
    }
    if !rng.one_in(6) {
        let channels = metadata::channels(rng, care, sizes.components);
        trees.push((parts::CHANNELS, channels));
    }
    if rng.one_in(3) {
        trees.push((SPARE, trees::random(rng)));
    }
    (sizes, trees)
}

/// Frames from 0 up, most of them whole, where a frame is small enough.
fn frames(rng: &mut Rng, care: Care, sizes: Sizes, file: &mut Nd2) {
    let whole = sizes.stride as u128 * sizes.height as u128;
    let len = if whole <= 600 { whole as usize } else { 5 };
    let count = rng.pick(&[0, 1, 2, 4, 6, 12, 24]);
    let skipped = rng.below(30);
    for n in 0..count {
        if n == skipped {
            continue;
        }
        let mut data = rng.bytes(8 + len);
        if care != Care::Good && rng.one_in(6) {
            let short = rng.between(0, 12) as usize;
            data.truncate(data.len().saturating_sub(short));
        } else if rng.one_in(8) {
            data.extend_from_slice(&[7; 5]);
        }
        file.add(&parts::frame_name(n), &data);
    }
}

/// The file with its map, in some order, with repeats, and with damages.
fn finished(rng: &mut Rng, care: Care, mut file: Nd2) -> Vec<u8> {
    if rng.one_in(3) {
        let at = rng.place(file.entries.len());
        file.entries.rotate_left(at);
    }
    if care != Care::Good {
        damage::entries(rng, &mut file.entries);
    }
    if care != Care::Broken {
        return file.finish();
    }
    let mut bytes = damage::map(rng, file);
    if rng.one_in(3) {
        damage::bytes(rng, &mut bytes);
    }
    if rng.one_in(12) {
        damage::cut(rng, &mut bytes);
    }
    bytes
}

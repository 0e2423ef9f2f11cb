//! Files at the limits that random ones do not reach: large maps, levels of many items, many scenes, a whole roller.

use crate::file::{MapEntry, Nd2};
use crate::parts::{self, Plane, Sizes};
use crate::roller::roller;
use crate::tree::{level, u32, Record};
use std::io::{self, Seek, Write};

/// A file's name in reports, and what writes it.
pub type Corner = (&'static str, fn() -> Vec<u8>);

pub const ALL: [Corner; 10] = [
    ("a roller of 24 points, 11 steps and 2 lamps", || {
        roller(24, 11, 2, 16, 16)
    }),
    ("2,000,000 map entries", || many_entries(2_000_000, false)),
    ("2,000,001 map entries", || many_entries(2_000_001, false)),
    ("2,000,000 map entries, most of one name", || {
        many_entries(2_000_000, true)
    }),
    ("2,000,001 map entries, most of one name", || {
        many_entries(2_000_001, true)
    }),
    ("a level of 10,000,000 items", || many_items(10_000_000)),
    ("a level of 10,000,001 items", || many_items(10_000_001)),
    ("1,000,000 points", || many_points(1)),
    ("1,000,000 points of 1,024 components", || many_points(1024)),
    ("1,024 components, planes of 2^64 - 1", all_covered),
];

fn needed(sizes: Sizes, experiment: Record) -> Nd2 {
    let mut file = Nd2::new();
    file.add(parts::ATTRIBUTES, &parts::attributes(sizes).encode());
    file.add(parts::EXPERIMENT, &experiment.encode());
    file
}

fn one_sample(components: u64) -> Sizes {
    Sizes::packed(1, 1, components, 8)
}

/// A file whose map has so many entries, of which all but two are alike or all are different.
fn many_entries(count: usize, alike: bool) -> Vec<u8> {
    let mut file = needed(one_sample(1), parts::experiment(&[]));
    for i in file.entries.len()..count {
        let name = if alike {
            b"!".to_vec()
        } else {
            format!("{i:x}!").into_bytes()
        };
        file.entries.push(MapEntry {
            name,
            offset: 0,
            size: 0,
        });
    }
    file.finish()
}

/// An experiment that says it has so many items, with all that follows them, and ends after two.
fn many_items(count: u32) -> Vec<u8> {
    let loops = [(parts::TIME, parts::counted(3))];
    let mut experiment = parts::experiment(&loops);
    if let Some(level) = experiment.level_mut() {
        level.count = Some(count);
        level.skip = Some(8 * count as usize);
    }
    needed(one_sample(1), experiment).finish()
}

/// One loop over 1,000,000 points.
fn many_points(components: u64) -> Vec<u8> {
    let records = vec![
        u32("eType", parts::POINTS),
        level("uLoopPars", parts::counted(1_000_000)),
    ];
    needed(one_sample(components), level("SLxExperiment", records)).finish()
}

/// As many components as there may be, all of them covered by the first plane and once more by the second.
fn all_covered() -> Vec<u8> {
    let mut file = needed(one_sample(1024), parts::experiment(&[]));
    let planes = ["first", "second"].map(|name| Plane::new(name, 255).covering(u64::MAX));
    file.add(parts::CHANNELS, &parts::channels(&planes).encode());
    file.add(&parts::frame_name(0), &parts::frame(&[7; 1024]));
    file.finish()
}

/// Writes a file of one frame of these sizes, all zero: a hole, which takes no room on a disk however large it is.
pub fn hollow(sizes: Sizes, out: &mut (impl Write + Seek)) -> io::Result<()> {
    let mut file = needed(sizes, parts::experiment(&[]));
    file.add_hole(&parts::frame_name(0), 8 + sizes.stride * sizes.height, out)?;
    out.write_all(&file.finish())
}

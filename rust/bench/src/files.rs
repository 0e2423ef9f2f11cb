//! The files that are read.

use sample::file::MapEntry;
use sample::parts::{self, Plane, Sizes};
use sample::tree::{level, u32, Record};
use sample::{Nd2, Rng};

/// The trees that every file needs.
fn needed(sizes: Sizes, loops: &[(u32, Vec<Record>)]) -> Nd2 {
    with_experiment(sizes, &parts::experiment(loops))
}

/// A file of few samples, its experiment given.
pub fn small(experiment: &Record) -> Vec<u8> {
    with_experiment(Sizes::packed(4, 4, 1, 16), experiment).finish()
}

fn with_experiment(sizes: Sizes, experiment: &Record) -> Nd2 {
    let mut file = Nd2::new();
    file.add(parts::ATTRIBUTES, &parts::attributes(sizes).encode());
    file.add(parts::EXPERIMENT, &experiment.encode());
    file
}

/// A file of one frame, whose bytes are mixed.
pub fn one_frame(sizes: Sizes) -> Vec<u8> {
    let bytes = sizes.stride as usize * sizes.height as usize;
    let mixed = (0..bytes).map(|i| (i.wrapping_mul(2_654_435_761) >> 7) as u8);
    let mut file = needed(sizes, &[]);
    file.add(
        &parts::frame_name(0),
        &parts::frame(&mixed.collect::<Vec<u8>>()),
    );
    file.finish()
}

/// What the entries of a large map are called.
#[derive(Clone, Copy, PartialEq, Eq)]
pub enum MapNames {
    /// As the frames that the loops make.
    Frames,
    /// As frames that the loops do not make, all of one length.
    OneLength,
    /// 6 to 40 bytes by chance, and unlike frames.
    Mixed,
}

/// A file whose map has so many entries. Its frames are 2 points at one time, or at as many as there are entries for; they
/// are the last entries, and share one chunk, which bears the name of the last of them.
pub fn large_map(entries: usize, names: MapNames) -> Vec<u8> {
    let times = match names {
        MapNames::Frames => (entries - 2) / 2,
        _ => 1,
    };
    let loops = [
        (parts::POINTS, parts::counted(2)),
        (parts::TIME, parts::counted(times as u32)),
    ];
    let mut file = needed(Sizes::packed(4, 4, 1, 16), &loops);
    let others = match names {
        MapNames::Frames => 0,
        _ => entries - 4,
    };
    file.entries.extend(other_entries(others, names));
    let offset = file.bytes.len() as u64;
    let frames = 2 * times as u64;
    let last = parts::frame_name(frames - 1);
    file.chunk(last.as_bytes(), &parts::frame(&[7; 32]));
    file.entries.extend((0..frames).map(|n| MapEntry {
        name: parts::frame_name(n).into_bytes(),
        offset,
        size: 40,
    }));
    file.finish()
}

/// Entries that nothing is looked up in, as if each chunk stood behind the one before.
fn other_entries(count: usize, names: MapNames) -> impl Iterator<Item = MapEntry> {
    let mut rng = Rng::new(1);
    (0..count as u64).map(move |i| MapEntry {
        name: match names {
            MapNames::Mixed => mixed_name(&mut rng),
            _ => parts::frame_name(1_000_000 + i).into_bytes(),
        },
        offset: 4096 * (i + 1),
        size: 4000,
    })
}

/// A name that begins with a small letter, so that no chunk that is looked up has it.
fn mixed_name(rng: &mut Rng) -> Vec<u8> {
    let len = rng.between(6, 40);
    let mut name = vec![rng.between(b'a'.into(), b'z'.into()) as u8];
    let inner = (2..len).map(|_| rng.between(b'"'.into(), b'~'.into()) as u8);
    name.extend(inner);
    name.push(b'!');
    name
}

/// The chunk of `deep`.
pub const DEEP: &str = "Deep!";

/// So many levels, one in another.
pub fn levels(count: usize) -> Record {
    (0..count).fold(u32("", 1), |record, _| level("", vec![record]))
}

/// A file that has a tree of as many levels as are read, and a calibration of as many.
pub fn deep() -> Vec<u8> {
    let mut calibration = parts::calibration(0.325);
    if let Some(level) = calibration.level_mut() {
        level.records.push(levels(63));
    }
    let mut file = needed(Sizes::packed(4, 4, 2, 16), &[]);
    file.add(DEEP, &levels(64).encode());
    file.add(parts::CALIBRATION, &calibration.encode());
    let lamp = Plane::new("lamp", 255);
    file.add(parts::CHANNELS, &parts::channels(&[lamp]).encode());
    file.add(&parts::frame_name(0), &parts::frame(&[7; 64]));
    file.finish()
}

/// The one unit in which the names of a level differ, of eight.
#[derive(Clone, Copy)]
pub enum Units {
    First,
    Last,
    /// The last, where the others stand above the surrogates.
    LastAbove,
}

/// Every name has a unit of its own from here on, below the surrogates.
const OWN: u16 = 0x100;
/// With no more names than these, all of those units are below the surrogates.
pub const MOST_NAMES: u32 = 50_000;

/// A unit that no other name has in its place.
pub fn own_unit(i: usize) -> u16 {
    OWN + i as u16
}

/// The units of name number i, and their zero.
pub fn name_of(i: usize, units: Units) -> Vec<u16> {
    let own = own_unit(i);
    match units {
        Units::First => [&[own], &[0x61; 7][..], &[0]].concat(),
        Units::Last => [&[0x61; 7][..], &[own, 0]].concat(),
        Units::LastAbove => [&[0xF900; 7][..], &[own, 0]].concat(),
    }
}

pub fn renamed(record: Record, name: Vec<u16>) -> Record {
    Record { name, ..record }
}

/// An experiment whose points are these entries, which opening counts.
pub fn counting(points: Vec<Record>) -> Record {
    parts::experiment(&[(parts::POINTS, vec![level("Points", points)])])
}

/// An experiment of one loop of one time, followed by these entries, through which opening walks.
pub fn walking(entries: Vec<Record>) -> Record {
    let records = vec![
        u32("eType", parts::TIME),
        level("uLoopPars", parts::counted(1)),
        level("ppNextLevelEx", entries),
    ];
    level("SLxExperiment", records)
}

/// A file whose points are so many named entries.
pub fn counted_names(names: usize, units: Units) -> Vec<u8> {
    let point = |i| renamed(u32("", 0), name_of(i, units));
    small(&counting((0..names).map(point).collect()))
}

/// A file whose loop is followed by so many named entries, levels or not.
pub fn walked_names(names: usize, levels: bool) -> Vec<u8> {
    let entry = |i| {
        let record = if levels {
            level("", vec![])
        } else {
            u32("", 0)
        };
        renamed(record, name_of(i, Units::First))
    };
    small(&walking((0..names).map(entry).collect()))
}

//! Families of files that are slow on purpose: experiments whose levels have many entries, by a size that grows.

use crate::files::{self, counting, name_of, own_unit, renamed, walking, Units};
use sample::parts;
use sample::tree::{flag, level, u32, Record, Value};

/// Files of one kind.
pub struct Family {
    /// What there are so many of.
    pub what: &'static str,
    /// How many there are in the largest file; the others have a half and a quarter.
    pub most: usize,
    experiment: fn(usize) -> Record,
    /// How many frames the loops make.
    frames: fn(usize) -> usize,
}

/// A file, how many entries its experiment has, and how many frames its loops make.
pub struct Made {
    pub file: Vec<u8>,
    pub entries: usize,
    pub frames: usize,
}

impl Family {
    /// The file of a size.
    pub fn file(&self, size: usize) -> Made {
        let experiment = (self.experiment)(size);
        Made {
            file: files::small(&experiment),
            entries: entries(&experiment),
            frames: (self.frames)(size),
        }
    }
}

/// A family whose loop has one frame.
const fn walked(what: &'static str, most: usize, experiment: fn(usize) -> Record) -> Family {
    Family {
        what,
        most,
        experiment,
        frames: |_| 1,
    }
}

/// A family whose frames are the names that differ.
const fn counted(
    what: &'static str,
    most: usize,
    experiment: fn(usize) -> Record,
    frames: fn(usize) -> usize,
) -> Family {
    Family {
        what,
        most,
        experiment,
        frames,
    }
}

pub static ALL: [Family; 10] = [
    walked("names that begin with a pair", 17_800, |n| {
        walking(pairs(n))
    }),
    walked("names that begin with a pair, one twice", 17_800, |n| {
        walking(one_twice(pairs(n)))
    }),
    walked("names, 252 first units alike", 2_500, |n| {
        walking(flags(n, alike_first))
    }),
    walked("names, 252 last units alike", 2_500, |n| {
        walking(flags(n, alike_last))
    }),
    walked("names over 50 levels each", 4_500, |n| walking(deep(n))),
    walked("names over 50 levels each, one twice", 4_500, |n| {
        walking(one_twice(deep(n)))
    }),
    walked("unnamed in 31 nestings", 930_000, |n| {
        walking(nested(NESTINGS, n / NESTINGS))
    }),
    walked("names, each an empty level", 20_000, |n| {
        walking((0..n).map(empty_level).collect())
    }),
    counted(
        "names counted, last units differ",
        20_000,
        |n| counting(points(n)),
        |n| n,
    ),
    counted(
        "names counted, half of them twice",
        20_000,
        |n| counting(half_twice(n)),
        different,
    ),
];

/// Nestings take two levels each, and a tree has 64.
pub const NESTINGS: usize = 31;

/// How many entries a record makes.
fn entries(record: &Record) -> usize {
    match &record.value {
        Value::Raw(_) => 1,
        Value::Level(level) => 1 + level.records.iter().map(entries).sum::<usize>(),
    }
}

fn flags(count: usize, name: fn(usize) -> Vec<u16>) -> Vec<Record> {
    let one = |i| renamed(flag("", 1), name(i));
    (0..count).map(one).collect()
}

/// Names of four units that begin with the same pair of surrogates and differ in the last.
fn pairs(count: usize) -> Vec<Record> {
    flags(count, |i| vec![0xD83D, 0xDE00, 0x61, own_unit(i), 0])
}

/// The two units in which names of 254 differ.
fn own_units(i: usize) -> [u16; 2] {
    [own_unit(i / 100), own_unit(i % 100)]
}

fn alike_first(i: usize) -> Vec<u16> {
    [&[0x61; 252][..], &own_units(i), &[0]].concat()
}

fn alike_last(i: usize) -> Vec<u16> {
    [&own_units(i)[..], &[0x61; 252], &[0]].concat()
}

/// Named levels, each over 50 more, one in another.
fn deep(count: usize) -> Vec<Record> {
    let one = |i| renamed(level("", vec![files::levels(50)]), name_of(i, Units::First));
    (0..count).map(one).collect()
}

/// The first record once more at the end.
fn one_twice(mut records: Vec<Record>) -> Vec<Record> {
    records.extend(records.first().cloned());
    records
}

/// What a loop is followed by: so many unnamed flags, and a named loop that is followed by the same, so often.
fn nested(nestings: usize, unnamed: usize) -> Vec<Record> {
    let mut records = vec![flag("", 1); unnamed];
    let inner = match nestings {
        1 => vec![],
        _ => vec![
            u32("eType", parts::SPECTRAL),
            level("uLoopPars", parts::counted(1)),
            level("ppNextLevelEx", nested(nestings - 1, unnamed)),
        ],
    };
    records.push(level("i0000000000", inner));
    records
}

fn empty_level(i: usize) -> Record {
    renamed(level("", vec![]), name_of(i, Units::First))
}

fn points(count: usize) -> Vec<Record> {
    let one = |i| renamed(u32("", 0), name_of(i, Units::Last));
    (0..count).map(one).collect()
}

/// How many names differ where half of them stand twice among so many.
fn different(count: usize) -> usize {
    count - count / 3
}

/// Names of which one half stands twice.
fn half_twice(count: usize) -> Vec<Record> {
    let mut records = points(different(count));
    records.extend_from_within(..count / 3);
    records
}

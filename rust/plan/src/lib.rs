//! What is asked about one file.

pub mod doubles;

use sample::parts::{ATTRIBUTES, CALIBRATION, CHANNELS, EXPERIMENT};
use sample::random::SPARE;
use sample::Rng;
use second::chunks::part;
use second::map::{self, Map};
use second::refusal::MISSING;
use second::sheets::HEAD_BYTES;
use second::trees::ENTRY_BYTES;
use second::{Axis, Loop, Range, Summary};

/// A register is asked up to this many frames.
pub const MOST_FRAMES: u64 = 2000;

/// The fields of a sheet: where the first one begins, and how many there are, each of twelve bytes.
const FIRST_FIELD: usize = 10;
const FIELDS: u64 = 13;

/// The names of the trees that every file is asked for; the last one no file has.
pub const TREES: [&str; 6] = [
    ATTRIBUTES,
    EXPERIMENT,
    CALIBRATION,
    CHANNELS,
    SPARE,
    "Nothing!",
];

pub struct Plan {
    /// The summary that the later calls get: the opening's, or one that only serves to ask for trees.
    pub summary: Summary,
    pub opened: bool,
    pub planes: Vec<[u64; 4]>,
    pub names: Vec<Vec<u8>>,
    /// Bytes that are lent beyond what an answer needs.
    pub spare: usize,
    /// The bytes of a table that always suffices, and the entries of one that may be too small.
    pub table: usize,
    pub room: usize,
    /// Summaries that are refused.
    pub wild: Vec<Summary>,
    /// Summaries that no opening of this file gave; some are refused.
    pub strange: Vec<Summary>,
    /// What the damage of sheets is drawn from.
    pub sheets: Rng,
}

/// A summary that can be used, for a file that does not open.
fn probe(map: Range, components: u64) -> Summary {
    Summary {
        width: 1,
        stride: components,
        height: 1,
        components,
        bits: 8,
        map,
        ..Summary::default()
    }
}

impl Plan {
    pub fn new(rng: &mut Rng, file: &[u8], open: &Result<Summary, u32>) -> Plan {
        let components = rng.pick(&[1, 2, 3, 5]);
        let summary = open.unwrap_or(probe(Range::default(), components));
        let spare = rng.pick(&[0, 0, 1, 7]);
        let mut plan = Plan {
            summary,
            opened: open.is_ok(),
            planes: Vec::new(),
            names: TREES.iter().map(|name| name.as_bytes().to_vec()).collect(),
            spare,
            table: sufficient(file).unwrap_or(0) + spare,
            room: rng.place(30),
            wild: Vec::new(),
            strange: vec![strange(rng, file, summary)],
            sheets: rng.aside(),
        };
        if plan.opened {
            plan.planes = planes(rng, &summary);
            plan.wild = (0..3).map(|_| wild(rng, summary)).collect();
        }
        plan
    }

    /// All planes, where they are few.
    pub fn every_plane(&mut self) {
        let [scenes, times, components, depths] = counts(&self.summary);
        if !self.opened || self.summary.frames() * components as u128 > MOST_FRAMES as u128 {
            return;
        }
        for n in 0..scenes * times * components * depths {
            let (z, n) = (n % depths, n / depths);
            let (c, n) = (n % components, n / components);
            self.planes.push([n / times, n % times, c, z]);
        }
    }

    /// Where the map lies in a file that does not open, as the original says.
    pub fn map_at(&mut self, map: Range) {
        if !self.opened {
            self.summary.map = map;
        }
    }
}

/// The bytes of a table that is enough for each of the trees that are asked for: a record has two bytes at least, so
/// that no tree needs more entries than half of its bytes (document 01, Trees).
fn sufficient(file: &[u8]) -> Result<usize, u32> {
    let map = Map::read(part(file, map::place(file)?).unwrap_or(&[]))?;
    let chunks = TREES
        .iter()
        .map(|name| map.chunk(file, name.as_bytes(), MISSING));
    let most = chunks.flatten().map(|data| data.len as usize / 2).max();
    Ok(most.unwrap_or(0) * ENTRY_BYTES)
}

/// How many scenes, times, components and depths there are.
fn counts(s: &Summary) -> [u64; 4] {
    [
        s.count(Axis::P),
        s.count(Axis::T),
        s.components,
        s.count(Axis::Z),
    ]
}

/// The first plane, two at random, and one out of range.
fn planes(rng: &mut Rng, s: &Summary) -> Vec<[u64; 4]> {
    let counts = counts(s);
    let mut planes = vec![[0; 4], counts.map(|n| rng.below(n)), counts.map(|n| n - 1)];
    let mut outside = counts.map(|n| rng.below(n));
    let axis = rng.place(4);
    outside[axis] = rng.pick(&[counts[axis], counts[axis] + 1, u64::MAX]);
    planes.push(outside);
    planes
}

/// A summary with one thing in it that 20 is about.
fn wild(rng: &mut Rng, mut s: Summary) -> Summary {
    match rng.below(14) {
        0 => s.width = 0,
        1 => s.height = 0,
        2 => s.components = rng.pick(&[0, 1025, u64::MAX]),
        3 => s.stride = s.width * s.components * (s.bits / 8) - 1,
        4 => s.bits = rng.pick(&[0, 7, 24, 64, u64::MAX]),
        5 => s.depth = rng.pick(&[4, u64::MAX]),
        6 => s.map.start = u64::MAX,
        7 => s.map.len = rng.pick(&[u64::MAX, 1 << 40]),
        8 => {
            s.width = u64::MAX;
            s.components = 2;
            s.stride = u64::MAX;
        }
        9 => {
            s.width = 1 << 40;
            s.height = 1 << 40;
            s.stride = u64::MAX;
        }
        10 => {
            s.depth = 1;
            s.loops[0].count = rng.pick(&[0, 1_000_001, u64::MAX]);
        }
        11 => {
            s.depth = 2;
            s.loops[0].count = 1;
            s.loops[1] = s.loops[0];
        }
        12 => {
            s.depth = 3;
            s.loops = [s.loops[0]; 3];
        }
        _ => {
            s.depth = 3;
            s.loops[2].count = 0;
        }
    }
    s
}

/// A summary with some things in it that the file does not say.
fn strange(rng: &mut Rng, file: &[u8], mut s: Summary) -> Summary {
    for _ in 0..rng.between(1, 3) {
        match rng.below(8) {
            0 => s.map.start = s.map.start.saturating_add(rng.between(0, 40)),
            1 => s.map.len = s.map.len.saturating_sub(rng.between(0, 60)),
            2 => s.map.start = rng.below(file.len() as u64 + 2),
            3 => s.map.len = rng.below(file.len() as u64 + 2),
            4 => s.width = rng.between(0, 4),
            5 => s.height = rng.between(0, 4),
            6 => s.bits = rng.pick(&[8, 16, 32]),
            _ => {
                let axis = rng.pick(&[Axis::T, Axis::Z, Axis::P]);
                let count = rng.between(0, 3);
                s.depth = rng.between(0, 3);
                s.loops[rng.place(3)] = Loop { axis, count };
            }
        }
    }
    s
}

/// A sheet with something wrong in it, mostly before its samples; or another one, where only a sample is changed or
/// width and height are swapped.
pub fn damaged(rng: &mut Rng, sheet: &[u8]) -> Vec<u8> {
    let mut bytes = sheet.to_vec();
    match rng.below(10) {
        0 => bytes.truncate(rng.place(sheet.len())),
        1 => {
            let more = rng.between(1, 4) as usize;
            bytes.extend(rng.bytes(more));
        }
        2 => bytes[rng.place(sheet.len())] = rng.word() as u8,
        3 => turned(&mut bytes),
        4 | 5 => {
            let at = value_at(rng.below(FIELDS) as usize);
            let value = rng.pick(&[0, 1, 2, 3, 4, 8, 16, 32, 187, u32::MAX]);
            bytes[at..at + 4].copy_from_slice(&value.to_le_bytes());
        }
        _ => bytes[rng.place(HEAD_BYTES)] ^= 1 << rng.below(8),
    }
    bytes
}

/// Where the value of a field stands.
fn value_at(field: usize) -> usize {
    FIRST_FIELD + 12 * field + 8
}

/// Width and height of a sheet swapped, and the rows of its strip with them.
fn turned(sheet: &mut [u8]) {
    let value = |field: usize| sheet[value_at(field)..value_at(field) + 4].to_vec();
    for (field, value) in [(0, value(1)), (1, value(0)), (7, value(0))] {
        sheet[value_at(field)..value_at(field) + 4].copy_from_slice(&value);
    }
}

//! Maps of many entries.

use crate::cases::{copying, emptying_caches, Case};
use crate::files::{self, MapNames};
use crate::original::Original;
use crate::table::{Row, Target};
use crate::timing::{race, race_after, Turns, Who};

/// A further size of the maps, where that is smaller. It is passed over faster, and so more often; it may lie in the cache,
/// and so is passed over out of it too.
const FEWER: usize = 100_000;
const FEWER_REPETITIONS: u32 = 4;

/// What the caches have before a turn.
#[derive(Clone, Copy, PartialEq, Eq)]
enum Caches {
    /// As much of the map as fits.
    Map,
    /// Other bytes.
    Others,
}

/// Passing over a map may take so much of memcpy's time.
fn targets() -> Vec<Target> {
    vec![Target::new(Who::Memcpy, 3.0)]
}

/// Maps of so many entries, and of fewer: opening, and one plane; of the frames' names also the register.
pub fn rows(entries: usize, original: Option<Original>, repetitions: u32) -> Vec<Row> {
    let maps = |entries, caches, repetitions| {
        let names = [MapNames::Frames, MapNames::OneLength, MapNames::Mixed];
        let rows = names.map(|names| of_map(entries, names, caches, original, repetitions));
        rows.into_iter().flatten()
    };
    let mut rows: Vec<Row> = maps(entries, Caches::Map, repetitions).collect();
    if FEWER < entries {
        rows.extend(maps(FEWER, Caches::Map, FEWER_REPETITIONS * repetitions));
        rows.extend(maps(FEWER, Caches::Others, repetitions));
    }
    rows
}

fn label(names: MapNames) -> &'static str {
    match names {
        MapNames::Frames => "frames",
        MapNames::OneLength => "one length",
        MapNames::Mixed => "mixed lengths",
    }
}

fn of_map(
    entries: usize,
    names: MapNames,
    caches: Caches,
    original: Option<Original>,
    repetitions: u32,
) -> Vec<Row> {
    let file = files::large_map(entries, names);
    let case = Case::new(&file, original);
    let (map, summary) = (case.map(), case.proved.summary());
    let row = |what: String, best, targets| Row {
        what,
        bytes: map.len(),
        best,
        targets,
    };
    let passing = |what: &str, turns: Turns| {
        let (best, out) = match caches {
            Caches::Map => (race_after(copying(map), repetitions, turns), ""),
            Caches::Others => (
                race_after(emptying_caches(), repetitions, turns),
                ", out of the cache",
            ),
        };
        let what = format!("{what}, {entries} entries, {}{out}", label(names));
        row(what, best, targets())
    };
    let last = [1, summary.times() - 1, 0, 0];
    let mut rows = vec![
        passing("open a map", case.open(original)),
        passing("plane of 4 x 4", case.plane(last, map)),
    ];
    if names == MapNames::Frames && caches == Caches::Map {
        let what = format!("register of {} frames", summary.frames());
        rows.push(row(what, race(repetitions, 1, case.register()), vec![]));
    }
    rows
}

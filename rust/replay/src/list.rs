//! Which files are in the list, and what is asked about them.

use crate::answer::State;
use crate::questions::{about, all, channels_of};
use crate::step::Step;
use crate::{misnamed, pixel, rules, sheets, whole};
use sample::parts::{self, Sizes};
use sample::{Nd2, Roller};
use second::sheets::HEAD_BYTES;
use second::{Axis, Loop, Summary};
use std::collections::{BTreeMap, BTreeSet};

/// So many random files are taken as they come, from seed 1 on.
const FILES: usize = 200;
/// Of these, so many at the most that opening refuses with one number.
const MOST_ALIKE: usize = 12;
/// Of the files up to this seed, each is taken that gives a number in a call which no file before it gave.
const LAST_SEED: u64 = 20_000;
/// Larger files are not taken as they come, and larger ones not at all.
const MOST_COMMON: usize = 1_100;
const MOST_FILE: usize = 4_000;

/// All steps, in order.
pub fn steps() -> Vec<Step> {
    let mut steps = ceiling();
    steps.extend(four_loops());
    steps.extend(ruled());
    steps.extend(rollers());
    steps.extend(covered());
    steps.extend(random_files());
    steps.extend(sheets::all());
    steps.extend(whole::all());
    steps.extend(pixel::all());
    steps.extend(misnamed::all());
    steps
}

/// The numbers that each call gives.
pub fn given(steps: &[Step]) -> BTreeSet<(&'static str, u32)> {
    let mut state = State::default();
    let answers = steps.iter().filter_map(|step| state.take(step));
    answers.map(|answer| (answer.call, answer.number)).collect()
}

fn random_files() -> Vec<Step> {
    let mut taken = Vec::new();
    let mut seen = BTreeSet::new();
    let mut alike = BTreeMap::new();
    let mut files = 0;
    for seed in 1..=LAST_SEED {
        let file = sample::random::file(seed);
        let len = file.len();
        if len > MOST_FILE {
            continue;
        }
        let refused = second::calls::opened(&file, usize::MAX).err();
        let Some(steps) = all(&format!("the file of seed {seed}"), seed, file) else {
            continue;
        };
        let before = alike.entry(refused).or_insert(0);
        let few = refused.is_none() || *before < MOST_ALIKE;
        let mut given = given(&steps);
        // no file is taken for its sheets or its pixel size: these are refused as its planes and its trees are
        given.retain(|(call, _)| !["sheet", "picometres"].contains(call));
        if files < FILES && len <= MOST_COMMON && few || !given.is_subset(&seen) {
            *before += 1;
            seen.extend(given);
            taken.extend(steps);
            files += 1;
        }
    }
    taken
}

fn roller(points: u32, steps: u32, lamps: u32) -> Roller {
    Roller::new(points, steps, lamps, 3, 2)
}

/// Every plane of small rollers, also as a sheet, and of one whose focus loop is the outer one.
fn rollers() -> Vec<Step> {
    let inside = roller(3, 2, 2);
    let outside = Roller {
        padding: 3,
        focus_outside: true,
        ..inside
    };
    let mut all = every_plane("a roller", inside);
    all.extend(every_plane("a roller, focus outside", outside));
    all
}

fn every_plane(label: &str, roller: Roller) -> Vec<Step> {
    let mut steps = about(label, roller.file());
    let buffer = 2 * (roller.width * roller.height) as usize;
    for point in 0..roller.points as u64 {
        for step in 0..roller.steps as u64 {
            for lamp in 0..roller.lamps as u64 {
                let at = [point, 0, lamp, step];
                steps.push(Step::Plane { at, buffer });
                let buffer = HEAD_BYTES + buffer;
                steps.push(Step::Sheet { at, buffer });
            }
        }
    }
    steps
}

/// The files of single rules.
fn ruled() -> Vec<Step> {
    let rules = rules::all().into_iter().zip(1..);
    let asked = rules.filter_map(|((label, file), seed)| all(label, seed, file));
    asked.flatten().collect()
}

/// Files whose plane records cover several components, and a roller of a colour camera.
fn covered() -> Vec<Step> {
    let camera = Roller {
        one_record: true,
        ..roller(2, 1, 3)
    };
    let mut files = rules::covered();
    files.push(("a roller of a colour camera", camera.file()));
    let files = files.into_iter();
    let asked = files.map(|(label, file)| channels_of(label, file));
    asked.flatten().collect()
}

/// A summary of three loops in order, and the same with a fourth said.
fn four_loops() -> Vec<Step> {
    let file = roller(2, 2, 1).file();
    let mut summary = second::calls::opened(&file, usize::MAX).unwrap_or_default();
    summary.loops[2] = Loop {
        axis: Axis::T,
        count: 1,
    };
    let mut steps = about("a roller of two loops", file);
    for (label, depth) in [("three loops", 3), ("four loops", 4)] {
        summary.depth = depth;
        let buffer = 24 * 4;
        steps.push(Step::Label(label.to_string()));
        steps.extend([Step::Summary(summary), Step::Register { buffer }]);
    }
    steps
}

/// Planes at the ceiling and one column over it, asked of a file whose only frame is small.
fn ceiling() -> Vec<Step> {
    let mut file = Nd2::new();
    let sizes = Sizes::packed(1, 1, 1, 8);
    file.add(parts::ATTRIBUTES, &parts::attributes(sizes).encode());
    file.add(parts::EXPERIMENT, &parts::experiment(&[]).encode());
    file.add(&parts::frame_name(0), &parts::frame(&[7]));
    let file = file.finish();
    let opened = second::calls::opened(&file, usize::MAX).unwrap_or_default();
    let of_width = |width: u64| Summary {
        width,
        stride: width,
        height: 65_536,
        ..opened
    };
    let at = [0; 4];
    let asked = |label: &str, width| {
        [
            Step::Label(label.to_string()),
            Step::Summary(of_width(width)),
            Step::Plane { at, buffer: 16 },
            Step::Sheet { at, buffer: 16 },
        ]
    };
    let mut steps = about("a file of one sample", file);
    steps.push(Step::Plane { at, buffer: 1 });
    steps.extend(asked(
        "65,536 by 65,536 bytes passes: the frame is short, 24",
        65_536,
    ));
    steps.extend(asked("65,537 by 65,536 bytes gives 22", 65_537));
    steps
}

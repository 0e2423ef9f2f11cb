//! Random experiments: loops of all types, in and below each other.

use super::numbers::{double, field, odd};
use super::Care;
use crate::parts::{CUSTOM, FOCUS, OTHER_TIME, POINTS, SPECTRAL, TIME};
use crate::rng::Rng;
use crate::tree::{f64, flag, level, list, text, u32, unnamed, Record};

const USUAL: [u32; 9] = [
    TIME, POINTS, FOCUS, SPECTRAL, OTHER_TIME, POINTS, FOCUS, TIME, SPECTRAL,
];
const UNUSUAL: [u32; 12] = [0, 3, 5, CUSTOM, CUSTOM, CUSTOM, CUSTOM, 9, 10, 11, 12, 200];

pub fn random(rng: &mut Rng, care: Care) -> Record {
    if rng.one_in(10) {
        return level("SLxExperiment", vec![u32("eType", 0)]);
    }
    if care == Care::Good {
        return chain(rng);
    }
    let mut left = 12;
    let kind = any_kind(rng);
    one(rng, "SLxExperiment", kind, 0, &mut left)
}

/// One loop below the other, each axis at most once, as a bench writes it.
fn chain(rng: &mut Rng) -> Record {
    let mut kinds = vec![rng.pick(&[TIME, OTHER_TIME]), POINTS, FOCUS, SPECTRAL];
    let turn = rng.place(4);
    kinds.rotate_left(turn);
    if rng.one_in(2) {
        kinds.swap(1, 2);
    }
    kinds.truncate(rng.between(1, 4) as usize);
    let mut inner: Option<Record> = None;
    while let Some(kind) = kinds.pop() {
        let name = if kinds.is_empty() {
            "SLxExperiment"
        } else {
            "i0000000000"
        };
        let count = count(rng, kind);
        let mut records = vec![u32("eType", kind)];
        records.extend(around(rng, kind, count, 0));
        if let Some(next) = inner.take() {
            let next = if rng.one_in(3) { unnamed(next) } else { next };
            records.push(level("ppNextLevelEx", vec![next]));
        }
        inner = Some(level(name, records));
    }
    inner.unwrap_or_else(|| level("SLxExperiment", Vec::new()))
}

/// Mostly a few; of points never many that are valid, since each is a scene.
fn count(rng: &mut Rng, kind: u32) -> u64 {
    if kind != POINTS && rng.one_in(20) {
        return rng.pick(&[1_000_000, 1_000_001, 999_999, 0]);
    }
    if rng.one_in(3000) {
        return 1_000_000;
    }
    rng.between(1, 4)
}

fn any_kind(rng: &mut Rng) -> u32 {
    if rng.one_in(12) {
        rng.pick(&UNUSUAL)
    } else {
        rng.pick(&USUAL)
    }
}

/// An experiment level with anything below it, while there are levels left.
fn one(rng: &mut Rng, name: &str, kind: u32, depth: u32, left: &mut u32) -> Record {
    *left = left.saturating_sub(1);
    let count = count(rng, kind);
    let mut records = vec![field(rng, "eType", kind as u64, 16)];
    if rng.one_in(25) {
        records.clear();
    }
    records.extend(around(rng, kind, count, 30));
    let children = rng.pick(&[0, 1, 1, 2, 2, 3]).min(*left as u64);
    if children > 0 && depth < 8 {
        records.push(next(rng, children, depth, left));
    }
    if rng.one_in(8) {
        let at = rng.place(records.len().max(1)).min(records.len());
        records.rotate_left(at);
    }
    level(name, records)
}

/// ppNextLevelEx: a level or a list of levels, often of one type, with other things between them.
fn next(rng: &mut Rng, children: u64, depth: u32, left: &mut u32) -> Record {
    let listed = rng.one_in(2);
    let mut records = Vec::new();
    let mut kind = any_kind(rng);
    for i in 0..children {
        let child = one(rng, &format!("i{i:010}"), kind, depth + 1, left);
        if rng.one_in(2) {
            kind = any_kind(rng);
        }
        records.push(if listed { unnamed(child) } else { child });
        if rng.one_in(10) {
            records.push(u32(if listed { "" } else { "uiNumber" }, i as u32));
        }
    }
    level("ppNextLevelEx", records)
}

/// What stands beside eType: the parameters, and for points which of them are valid.
fn around(rng: &mut Rng, kind: u32, count: u64, oddness: u64) -> Vec<Record> {
    let parameters = level("uLoopPars", parameters(rng, kind, count, oddness));
    let mut records = vec![wrapped(rng, parameters, oddness)];
    if kind == POINTS && rng.one_in(2) {
        records.push(valid(rng, count, oddness));
    }
    records
}

/// The parameters as they are, or as the one level of a list, or as something else.
fn wrapped(rng: &mut Rng, parameters: Record, oddness: u64) -> Record {
    match rng.below(40) {
        0..=3 => list("uLoopPars", vec![parameters]),
        4 if oddness > 0 => list("uLoopPars", vec![parameters.clone(), parameters]),
        5 if oddness > 0 => odd(rng, "uLoopPars"),
        6 if oddness > 0 => level("uLoopPars", vec![level("i0000000000", vec![parameters])]),
        7 if oddness > 0 => list("uLoopPars", vec![u32("", 4)]),
        _ => parameters,
    }
}

fn parameters(rng: &mut Rng, kind: u32, count: u64, oddness: u64) -> Vec<Record> {
    let mut records = vec![field(rng, "uiCount", count, oddness)];
    if oddness > 0 && rng.one_in(20) {
        records.clear();
    }
    match kind {
        POINTS if count < 100 && !rng.one_in(3) => records.push(points(rng, count, oddness)),
        SPECTRAL if rng.one_in(2) => records.push(planes(rng, count, oddness)),
        FOCUS => records.extend(focus(rng, oddness)),
        _ if rng.one_in(4) => records.push(f64("dPeriod", 1.5)),
        _ => {}
    }
    records
}

fn points(rng: &mut Rng, count: u64, oddness: u64) -> Record {
    if oddness > 0 && rng.one_in(10) {
        return odd(rng, "Points");
    }
    if oddness > 0 && rng.one_in(10) {
        return level("Points", Vec::new());
    }
    let listed = rng.one_in(2);
    let point = |i: u64| {
        let name = if listed {
            String::new()
        } else {
            format!("i{i}")
        };
        level(&name, vec![f64("dPosX", i as f64)])
    };
    let mut records: Vec<Record> = (0..count).map(point).collect();
    if rng.one_in(12) {
        records.push(text("i0", "again"));
    }
    level("Points", records)
}

/// pItemValid: a list of flags or numbers, shorter or longer than the points.
fn valid(rng: &mut Rng, count: u64, oddness: u64) -> Record {
    if oddness > 0 && rng.one_in(8) {
        return odd(rng, "pItemValid");
    }
    let len = if rng.one_in(4) {
        rng.between(0, 6)
    } else {
        count.min(6)
    };
    let one = |rng: &mut Rng| {
        if rng.one_in(8) {
            odd(rng, "")
        } else {
            flag("", !rng.one_in(6) as u8)
        }
    };
    let records = (0..len).map(|_| one(rng)).collect();
    level("pItemValid", records)
}

fn planes(rng: &mut Rng, count: u64, oddness: u64) -> Record {
    if oddness > 0 && rng.one_in(8) {
        return odd(rng, "pPlanes");
    }
    let other = rng.between(0, 3);
    let count = if rng.one_in(2) { count } else { other };
    level("pPlanes", vec![field(rng, "uiCount", count, oddness)])
}

fn focus(rng: &mut Rng, oddness: u64) -> Vec<Record> {
    let mut records = Vec::new();
    match rng.below(8) {
        0 => {}
        1 | 2 => records.push(f64("dZStep", rng.pick(&[0.5, -0.25, 1.0, 2.0]))),
        3 => records.push(f64("dZStep", rng.pick(&[0.0, -0.0]))),
        _ => records.push(double(rng, "dZStep")),
    }
    for (name, usual) in [("dZHigh", 10.0), ("dZLow", -10.0)] {
        match rng.below(4) {
            0 => {}
            1 => records.push(double(rng, name)),
            2 if oddness > 0 => records.push(odd(rng, name)),
            _ => records.push(f64(name, usual)),
        }
    }
    records
}

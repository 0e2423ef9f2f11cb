//! Document 01, Loops: what an experiment runs over.

use crate::numbers::{signed_field, unsigned, unsigned_field};
use crate::refusal::{AXIS_TWICE, LOOP_COUNT, LOOP_KIND, MISSING};
use crate::types::{Axis, Loop};
use crate::values::{Level, Value};

pub const CHUNK_NAME: &[u8] = b"ImageMetadataLV!";

const MOST_COUNT: u64 = 1_000_000;
const LAST_KIND: i64 = 10;
const POINTS: i64 = 2;
const FOCUS: i64 = 4;
const SPECTRAL: i64 = 6;
const CUSTOM: i64 = 7;

/// A loop that was appended in the walk.
struct Built {
    kind: i64,
    count: u64,
    nesting: u64,
}

/// The outermost experiment level, SLxExperiment: 11 without it.
pub fn experiment(root: &Level) -> Result<&Level, u32> {
    root.level("SLxExperiment").ok_or(MISSING)
}

/// The loops, outermost first: 15 and 16 as the walk meets them, then 15 and 17 of the loops that it appended.
pub fn read(experiment: &Level) -> Result<Vec<Loop>, u32> {
    let mut built = Vec::new();
    walk(experiment, 0, &mut built)?;
    judge(&built)
}

/// The level of a loop's parameters: uLoopPars itself, or where that is a list its only element.
pub fn parameters(experiment: &Level) -> Option<&Level> {
    match experiment.get("uLoopPars")? {
        Value::List(list) if list.len() == 1 => list[0].as_level(),
        value => value.as_level(),
    }
}

/// The experiment levels below one: the levels that stand in ppNextLevelEx, which may be a list or a level itself.
pub fn children(experiment: &Level) -> Vec<&Level> {
    let parts = experiment.get("ppNextLevelEx").map(Value::parts);
    let levels = parts.unwrap_or_default().into_iter();
    levels.filter_map(Value::as_level).collect()
}

pub fn count_field(parameters: &Level) -> u64 {
    unsigned_field(parameters, "uiCount").unwrap_or(0)
}

/// One experiment level and those below it. Below a level that says no loop none is looked at.
fn walk(experiment: &Level, nesting: u64, built: &mut Vec<Built>) -> Result<(), u32> {
    let Some((kind, count)) = said(experiment)? else {
        return Ok(());
    };
    let mut below = nesting;
    if kind != SPECTRAL {
        append(kind, count, nesting, built);
        below += 1;
    }
    for child in children(experiment) {
        walk(child, below, built)?;
    }
    Ok(())
}

/// The type and the count of the loop that a level states, if any.
fn said(experiment: &Level) -> Result<Option<(i64, u64)>, u32> {
    let Some(parameters) = parameters(experiment) else {
        return Ok(None);
    };
    let kind = signed_field(experiment, "eType").unwrap_or(0);
    if kind == 0 || kind > LAST_KIND {
        return Ok(None);
    }
    let count = match kind {
        1 | 8 | FOCUS | CUSTOM => count_field(parameters),
        POINTS => point_count(experiment, parameters),
        SPECTRAL => spectral_count(parameters),
        _ => return Err(LOOP_KIND),
    };
    if count > MOST_COUNT {
        return Err(LOOP_COUNT);
    }
    Ok((count > 0).then_some((kind, count)))
}

/// Type 2: all n points, or where the level has a list pItemValid the valid ones among its first n elements, which read
/// unsigned as something else than 0. Where there are no points: uiCount.
fn point_count(experiment: &Level, parameters: &Level) -> u64 {
    let points = parameters.get("Points").map_or(0, |p| p.parts().len());
    if points == 0 {
        return count_field(parameters);
    }
    let Some(Value::List(valid)) = experiment.get("pItemValid") else {
        return points as u64;
    };
    let first = valid.iter().take(points);
    first.filter(|v| unsigned(v).unwrap_or(0) != 0).count() as u64
}

/// Type 6: the uiCount in the level pPlanes where it can be read, 0 too; else the one beside pPlanes.
fn spectral_count(parameters: &Level) -> u64 {
    let planes = parameters.level("pPlanes");
    let preferred = planes.and_then(|p| unsigned_field(p, "uiCount"));
    preferred.unwrap_or_else(|| count_field(parameters))
}

/// Holds a loop against the one that was appended last. It is appended where there is none yet or that one has a
/// smaller nesting; merged into one of its own nesting and type, where of the two counts the larger stays; and else
/// dropped.
fn append(kind: i64, count: u64, nesting: u64, built: &mut Vec<Built>) {
    let new = Built {
        kind,
        count,
        nesting,
    };
    match built.last_mut() {
        Some(last) if last.nesting >= nesting => {
            if last.nesting == nesting && last.kind == kind {
                last.count = last.count.max(count);
            }
        }
        _ => built.push(new),
    }
}

/// The appended loops, taken in their order: a custom one is 15, one on an axis that came before is 17.
fn judge(built: &[Built]) -> Result<Vec<Loop>, u32> {
    let mut loops: Vec<Loop> = Vec::new();
    for one in built {
        let axis = match one.kind {
            CUSTOM => return Err(LOOP_KIND),
            POINTS => Axis::P,
            FOCUS => Axis::Z,
            _ => Axis::T,
        };
        if loops.iter().any(|l| l.axis == axis) {
            return Err(AXIS_TWICE);
        }
        let count = one.count;
        loops.push(Loop { axis, count });
    }
    Ok(loops)
}

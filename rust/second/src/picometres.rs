//! Change request 5: how many picometres a pixel has. dCalibration is in micrometres; a million times its value is
//! taken to the nearest whole number, and from the middle between two to the even one. It is worked out in whole
//! numbers of any length, so that nothing is lost on the way.

use crate::big::Big;
use crate::calibration::CHUNK_NAME;
use crate::calls::{map_of, named_root};
use crate::refusal::{MISSING, SIZE_RANGE};
use crate::summary::Summary;
use crate::trees;
use crate::values::{Level, Value};
use std::cmp::Ordering;

/// Picometres in a micrometre.
const MILLION: u32 = 1_000_000;

/// A double is 52 bits of a fraction, 11 of an exponent and a sign.
const FRACTION_BITS: u32 = 52;
const ENDLESS: u64 = 2047;
/// What the exponent counts from, if the fraction is taken as a whole number.
const LOWEST: usize = 1075;

/// A pixel size above 0, in micrometres.
enum Size {
    /// A ratio of two whole numbers.
    Exact(Big, Big),
    Infinite,
}

/// The picometres call: a number, and the picometres, which are 0 on a refusal. The table is zeroed in every case.
pub fn picometres(file: &[u8], summary: &Summary, table: &mut [u8]) -> (u32, u64) {
    table.fill(0);
    match answered(file, summary, trees::room(table)) {
        Ok(picometres) => (0, picometres),
        Err(refused) => (refused, 0),
    }
}

/// As the tree call for the calibration refuses, then 11, then 28.
fn answered(file: &[u8], summary: &Summary, room: usize) -> Result<u64, u32> {
    let map = map_of(file, summary)?;
    let root = named_root(file, &map, CHUNK_NAME, room)?;
    rounded(stated(&root).ok_or(MISSING)?)
}

fn stated(root: &Level) -> Option<&Value> {
    root.level("SLxCalibration")?.get("dCalibration")
}

/// The picometres of a value: 11 where it is no number above 0, 28 where they pass 2^64 − 1.
pub fn rounded(value: &Value) -> Result<u64, u32> {
    match size(value).ok_or(MISSING)? {
        Size::Exact(above, below) => nearest(&above.times(MILLION), &below)
            .to_u64()
            .ok_or(SIZE_RANGE),
        Size::Infinite => Err(SIZE_RANGE),
    }
}

/// The size that a value states, if it is a number above 0. A whole number is taken as it is: where it has no double
/// of its own, it is past the range by far.
fn size(value: &Value) -> Option<Size> {
    match *value {
        Value::Flag(flag) => whole(flag as u64),
        Value::Whole(number) => whole(u64::try_from(number).ok()?),
        Value::Double(number) => double(number.to_bits()),
        _ => None,
    }
}

fn whole(number: u64) -> Option<Size> {
    (number > 0).then(|| Size::Exact(Big::new(number), Big::new(1)))
}

/// The size of a double, from its bits.
fn double(bits: u64) -> Option<Size> {
    let negative = bits >> 63 == 1;
    let exponent = bits >> FRACTION_BITS & ENDLESS;
    let fraction = bits & ((1 << FRACTION_BITS) - 1);
    if negative || exponent == ENDLESS && fraction != 0 || bits == 0 {
        return None;
    }
    if exponent == ENDLESS {
        return Some(Size::Infinite);
    }
    // A subnormal has the exponent of the smallest numbers that are none, and no bit before its fraction.
    let (units, exponent) = match exponent {
        0 => (fraction, 1),
        _ => (1 << FRACTION_BITS | fraction, exponent as usize),
    };
    let power = |by: usize| Big::new(1).times_two_to(by);
    let above = Big::new(units).times_two_to(exponent.saturating_sub(LOWEST));
    Some(Size::Exact(above, power(LOWEST.saturating_sub(exponent))))
}

/// The whole number nearest to a ratio, the even one of two that are as near.
fn nearest(above: &Big, below: &Big) -> Big {
    let (quotient, left) = above.divided(below);
    match left.times(2).cmp(below) {
        Ordering::Less => quotient,
        Ordering::Equal if quotient.is_even() => quotient,
        _ => quotient.next(),
    }
}

//! Number conversions. IEEE 754 rules them: `as f64` and `as f32` round to nearest, ties to even. A double that is read as
//! a whole number has to be one, so that Rust's `as` from it drops no fraction and meets no limit.

use crate::values::{Level, Value};

/// 2^63 and 2^64, of which each is a double.
const TWO_63: f64 = 9_223_372_036_854_775_808.0;
const TWO_64: f64 = 18_446_744_073_709_551_616.0;

/// Whether a double has no fraction. NaN is no number and equal to nothing; an infinity is outside every range.
fn whole(number: f64) -> bool {
    number.trunc() == number
}

/// Document 01, Attributes, with change request 4: a value read unsigned. A double counts where it is a whole number of
/// u64, and −0 is 0; any other is as good as not there. Flags are 0 or 1.
pub fn unsigned(value: &Value) -> Option<u64> {
    match *value {
        Value::Flag(flag) => Some(flag as u64),
        Value::Whole(number) => u64::try_from(number).ok(),
        Value::Double(number) if whole(number) && (0.0..TWO_64).contains(&number) => {
            Some(number as u64)
        }
        _ => None,
    }
}

/// Likewise a value read signed, as eCompression and eType are: a double counts where it is a whole number of i64, and
/// whole numbers from 2^63 up are not there.
pub fn signed(value: &Value) -> Option<i64> {
    match *value {
        Value::Flag(flag) => Some(flag as i64),
        Value::Whole(number) => i64::try_from(number).ok(),
        Value::Double(number) if whole(number) && (-TWO_63..TWO_63).contains(&number) => {
            Some(number as i64)
        }
        _ => None,
    }
}

/// Document 01, Calibration and channels: a value read as a double, of a whole number the f64 nearest to it, ties to
/// even.
pub fn double(value: &Value) -> Option<f64> {
    match *value {
        Value::Flag(flag) => Some(flag as u8 as f64),
        Value::Whole(number) => Some(number as f64),
        Value::Double(number) => Some(number),
        _ => None,
    }
}

pub fn unsigned_field(level: &Level, name: &str) -> Option<u64> {
    level.get(name).and_then(unsigned)
}

pub fn signed_field(level: &Level, name: &str) -> Option<i64> {
    level.get(name).and_then(signed)
}

pub fn double_field(level: &Level, name: &str) -> Option<f64> {
    level.get(name).and_then(double)
}

//! Numbers in every form that a record can give them, ordinary and odd.

use crate::rng::Rng;
use crate::tree::{
    bytes, double_bits, f64, flag, i32, i64, level, list, pointer, text, u32, u64, Record,
};

const WHOLE: [u64; 24] = [
    0,
    1,
    2,
    3,
    4,
    6,
    7,
    8,
    10,
    11,
    16,
    32,
    255,
    256,
    1024,
    1025,
    1_000_000,
    1_000_001,
    (1 << 32) - 1,
    1 << 32,
    (1 << 53) + 1,
    (1 << 63) - 1,
    1 << 63,
    u64::MAX,
];

/// Whole numbers that lie at or beside a half of the last place of f64 or f32.
const PRECISE: [u64; 10] = [
    (1 << 24) + 1,
    (1 << 25) + 2,
    (1 << 53) + 1,
    (1 << 54) + 6,
    (1 << 60) + (1 << 36) + 1,
    (1 << 60) + (1 << 36) + (1 << 8),
    (1 << 63) + 1024,
    (1 << 63) + (1 << 39) + 1,
    u64::MAX - 1023,
    u64::MAX - 1024,
];

const DOUBLES: [f64; 38] = [
    0.0,
    -0.0,
    0.5,
    -0.5,
    1.0,
    1.5,
    1.9,
    2.0,
    2.9,
    3.999,
    4.0,
    4.9,
    -1.0,
    -10.0,
    10.0,
    10.9,
    11.0,
    1e-6,
    9.9999e-7,
    9.99999997475e-7,
    1e-13,
    1e-320,
    1000.0,
    1000.0001,
    1000.00003,
    1e6,
    1_000_000.9,
    1_000_001.0,
    3.4028235677973366e38,
    3.5e38,
    1e300,
    4294967295.9,
    4294967296.0,
    9.223372036854776e18,
    1.8446744073709552e19,
    f64::NAN,
    f64::INFINITY,
    f64::NEG_INFINITY,
];

/// A whole number in one of the forms that hold it; most often the usual one.
pub fn whole(rng: &mut Rng, name: &str, value: u64) -> Record {
    let small = u32::try_from(value).ok();
    match (rng.below(16), small) {
        (0, Some(v)) if v <= i32::MAX as u32 => i32(name, v as i32),
        (1, _) if value <= i64::MAX as u64 => i64(name, value as i64),
        (2, _) => u64(name, value),
        (3, _) => pointer(name, value),
        (4, Some(v)) => f64(name, v as f64),
        (5, Some(v)) if v <= 1 => flag(name, v as u8 * 7),
        (_, Some(v)) => u32(name, v),
        (_, None) => u64(name, value),
    }
}

/// A double, odd or any at all.
pub fn double(rng: &mut Rng, name: &str) -> Record {
    match rng.below(10) {
        0 => double_bits(name, rng.word()),
        1 => double_bits(name, f64::NAN.to_bits() | 1 << 63),
        2 => whole_odd(rng, name),
        3 => u64(name, rng.pick(&PRECISE)),
        _ => {
            let value = rng.pick(&DOUBLES);
            f64(name, value)
        }
    }
}

/// A whole number near or at some limit, in any form.
pub fn whole_odd(rng: &mut Rng, name: &str) -> Record {
    let value = rng.pick(&WHOLE);
    match rng.below(6) {
        0 => i32(name, value as i32),
        1 => i64(name, value as i64),
        2 => i64(name, -1),
        3 => u64(name, value),
        4 => f64(name, value as f64),
        _ => whole(rng, name, value),
    }
}

/// Anything that may stand where a number is looked for.
pub fn odd(rng: &mut Rng, name: &str) -> Record {
    match rng.below(12) {
        0..=4 => double(rng, name),
        5..=8 => whole_odd(rng, name),
        9 => text(name, "12"),
        10 => bytes(name, &[2, 0, 0, 0]),
        _ if rng.one_in(2) => list(name, vec![u32("", 2)]),
        _ => level(name, vec![u32("uiCount", 2)]),
    }
}

/// A field that is what it should be, or, once in `oddness` times, anything.
pub fn field(rng: &mut Rng, name: &str, value: u64, oddness: u64) -> Record {
    if oddness > 0 && rng.one_in(oddness) {
        odd(rng, name)
    } else {
        whole(rng, name, value)
    }
}

//! Files whose calibration states a given pixel size, and doubles around the places where its whole picometres turn:
//! powers of two, the middle between two picometres, 2^64 picometres, and both ends of the doubles.

use crate::file::Nd2;
use crate::parts::{self, Sizes};
use crate::rng::Rng;
use crate::tree::{
    bytes, double_bits, f64, flag, i32, i64, level, list, pointer, raw, text, u32, u64, Record,
};
use crate::whole::Double;

/// The field that states the size, in micrometres.
pub const FIELD: &str = "dCalibration";

/// The double nearest to 2^64 picometres: it lies below them, and the next one above.
pub const LIMIT: u64 = 0x42B0_C6F7_A0B5_ED8D;
/// The double nearest to half a picometre: it lies below that, and the next one above.
const HALF: u64 = 0x3EA0_C6F7_A0B5_ED8D;
const INFINITY: u64 = 0x7FF0_0000_0000_0000;

/// Doubles by name: usual ones, middles, limits, and what is no size.
pub const DOUBLES: [Double; 37] = [
    ("0.1", 0x3FB9_9999_9999_999A),
    ("0.1625", 0x3FC4_CCCC_CCCC_CCCD),
    ("0.325", 0x3FD4_CCCC_CCCC_CCCD),
    ("1.0", 0x3FF0_0000_0000_0000),
    ("123.456789", 0x405E_DD3C_07EE_0B0B),
    ("2^-7, a middle", 0x3F80_0000_0000_0000),
    ("3 x 2^-7, a middle", 0x3F98_0000_0000_0000),
    ("5 x 2^-7, a middle", 0x3FA4_0000_0000_0000),
    ("(2^32 - 1) x 2^-7, a middle", 0x417F_FFFF_FFE0_0000),
    ("(2^32 + 1) x 2^-7, a middle", 0x4180_0000_0010_0000),
    ("a large middle, up", LIMIT - 7),
    ("a large middle, down", LIMIT - 3),
    ("two below half a picometre", HALF - 1),
    ("below half a picometre", HALF),
    ("above half a picometre", HALF + 1),
    ("below 1.5 picometres", 0x3EB9_2A73_7110_E453),
    ("above 1.5 picometres", 0x3EB9_2A73_7110_E454),
    ("below 2.5 picometres", 0x3EC4_F8B5_88E3_68F0),
    ("above 2.5 picometres", 0x3EC4_F8B5_88E3_68F1),
    ("2^43", 0x42A0_0000_0000_0000),
    ("2^44", 0x42B0_0000_0000_0000),
    ("2^45", 0x42C0_0000_0000_0000),
    ("the largest below 2^64 picometres", LIMIT),
    ("the smallest above 2^64 picometres, a middle", LIMIT + 1),
    ("2^58", 0x4390_0000_0000_0000),
    ("1e300", 0x7E37_E43C_8800_759C),
    ("largest double", INFINITY - 1),
    ("infinity", INFINITY),
    ("smallest subnormal", 1),
    ("largest subnormal", 0x000F_FFFF_FFFF_FFFF),
    ("0.0", 0),
    ("-0.0", 1 << 63),
    ("-smallest subnormal", 1 << 63 | 1),
    ("-1.0", 0xBFF0_0000_0000_0000),
    ("-infinity", 1 << 63 | INFINITY),
    ("quiet NaN", 0x7FF8_0000_0000_0000),
    ("signalling NaN", INFINITY + 1),
];

/// A label, and what the level of the calibration has.
pub type Stated = (&'static str, Vec<Record>);

/// What is no double: numbers of other kinds, and what is no number.
pub fn others() -> Vec<Stated> {
    let mut others = numbers();
    others.extend(no_numbers());
    others
}

/// Numbers of other kinds.
fn numbers() -> Vec<Stated> {
    let most = 18_446_744_073_709;
    let one = |label, record| (label, vec![record]);
    vec![
        one("dCalibration 1, i32", i32(FIELD, 1)),
        one("dCalibration -1, i32", i32(FIELD, -1)),
        one("dCalibration 2^32 - 1, u32", u32(FIELD, u32::MAX)),
        one("dCalibration 0, u32", u32(FIELD, 0)),
        one("dCalibration 18446744073709, i64", i64(FIELD, most)),
        one("dCalibration -2^63, i64", i64(FIELD, i64::MIN)),
        one("dCalibration 18446744073709, u64", u64(FIELD, most as u64)),
        one(
            "dCalibration 18446744073710, u64",
            u64(FIELD, most as u64 + 1),
        ),
        one("dCalibration 2^53 + 1, u64", u64(FIELD, (1 << 53) + 1)),
        one("dCalibration 2^64 - 1, u64", u64(FIELD, u64::MAX)),
        one("dCalibration 3, pointer", pointer(FIELD, 3)),
        one("dCalibration true", flag(FIELD, 7)),
        one("dCalibration false", flag(FIELD, 0)),
    ]
}

/// What is no number, and names that come twice.
fn no_numbers() -> Vec<Stated> {
    let half = || f64(FIELD, 0.5);
    vec![
        ("no dCalibration", vec![f64("dAspect", 1.0)]),
        ("dCalibration as a text", vec![text(FIELD, "0.5")]),
        ("dCalibration as bytes", vec![bytes(FIELD, &[0; 8])]),
        ("dCalibration as a level", vec![level(FIELD, vec![half()])]),
        ("dCalibration as a list", vec![list(FIELD, vec![half()])]),
        ("dCalibration twice", vec![half(), u32(FIELD, 1)]),
        ("dCalibration, then a text", vec![half(), text(FIELD, "1")]),
        ("SLxCalibration as a list", vec![raw(6, "", &[0; 8])]),
    ]
}

/// A file of one sample that opens, with this tree as its calibration.
pub fn calibrated(calibration: &Record) -> Vec<u8> {
    let sizes = Sizes::packed(1, 1, 1, 8);
    let mut file = Nd2::new();
    file.add(parts::ATTRIBUTES, &parts::attributes(sizes).encode());
    file.add(parts::EXPERIMENT, &parts::experiment(&[]).encode());
    file.add(parts::CALIBRATION, &calibration.encode());
    file.add(&parts::frame_name(0), &parts::frame(&[7]));
    file.finish()
}

/// The same, with these records in the level of the calibration.
pub fn with(records: Vec<Record>) -> Vec<u8> {
    calibrated(&level("SLxCalibration", records))
}

/// The same with this double as the size.
pub fn with_double(bits: u64) -> Vec<u8> {
    with(vec![double_bits(FIELD, bits)])
}

/// Each power of two that is a double, subnormal ones too, with two neighbours on both sides; they rise from 0.
pub fn powers() -> Vec<u64> {
    let subnormal = (0..52).map(|i| 1u64 << i);
    let normal = (1..2047).map(|exponent| exponent << 52);
    let around = |bits: u64| bits.saturating_sub(2)..=bits + 2;
    let mut all: Vec<u64> = subnormal.chain(normal).flat_map(around).collect();
    all.sort();
    all.dedup();
    all
}

/// A double at random, mostly next to where something turns.
pub fn random(rng: &mut Rng) -> u64 {
    match rng.below(10) {
        0 | 1 => power(rng),
        2 | 3 => middle(rng),
        4 | 5 => tie(rng),
        6 => beside(rng, LIMIT),
        7 => end(rng),
        8 => rng.word(),
        _ => INFINITY / 2048 * rng.between(1000, 1070) + (rng.word() >> 12),
    }
}

/// A few steps from a double, on either side.
fn beside(rng: &mut Rng, bits: u64) -> u64 {
    (bits + rng.below(4)).saturating_sub(rng.below(4))
}

/// Beside a power of two, a subnormal one now and then.
fn power(rng: &mut Rng) -> u64 {
    let power = match rng.below(2048) {
        0 => 1 << rng.below(52),
        exponent => exponent << 52,
    };
    beside(rng, power)
}

/// A whole number of any length up to so many bits.
fn of_length(rng: &mut Rng, bits: u64) -> u64 {
    rng.word() >> (64 - rng.between(1, bits))
}

/// Beside the middle between two picometres, as near as a double comes to it.
fn middle(rng: &mut Rng) -> u64 {
    let below = of_length(rng, 50) as f64;
    beside(rng, ((below + 0.5) / 1e6).to_bits())
}

/// A middle that a double is: an odd number of 128ths. Seldom beside it.
fn tie(rng: &mut Rng) -> u64 {
    let odd = of_length(rng, 51) | 1;
    let bits = (odd as f64 / 128.0).to_bits();
    if rng.one_in(4) {
        beside(rng, bits)
    } else {
        bits
    }
}

/// The smallest and the largest doubles, infinity, NaN, and the same with a sign.
fn end(rng: &mut Rng) -> u64 {
    let (small, normal) = (rng.below(5), (1 << 52) - rng.below(3));
    let large = INFINITY - rng.below(4);
    let bits = rng.pick(&[small, normal, large, INFINITY, INFINITY + 1, u64::MAX >> 1]);
    bits | (rng.one_in(3) as u64) << 63
}

#[cfg(test)]
mod tests {
    use super::*;
    use std::collections::BTreeSet;

    /// Whether a double, times a million, has just a half behind the point: an odd number of 128ths.
    fn is_tie(double: f64) -> bool {
        (double * 128.0) % 2.0 == 1.0
    }

    #[test]
    fn powers_of_two() {
        let powers: BTreeSet<u64> = powers().into_iter().collect();
        let mut power = f64::from_bits(1);
        let mut count = 0;
        while power.is_finite() {
            let bits = power.to_bits();
            assert!(
                (bits - 1..=bits + 2).all(|bits| powers.contains(&bits)),
                "{power}"
            );
            power *= 2.0;
            count += 1;
        }
        assert_eq!(count, 1074 + 1024);
        assert!(powers.iter().all(|bits| f64::from_bits(*bits).is_finite()));
    }

    #[test]
    fn named_middles() {
        for (name, bits) in DOUBLES {
            assert_eq!(
                is_tie(f64::from_bits(bits)),
                name.contains("middle"),
                "{name}"
            );
        }
    }

    #[test]
    fn random_doubles_are_of_every_kind() {
        let rng = &mut Rng::new(1);
        let all: Vec<u64> = (0..20_000).map(|_| random(rng)).collect();
        let count =
            |is: &dyn Fn(f64) -> bool| all.iter().filter(|b| is(f64::from_bits(**b))).count();
        assert!(count(&is_tie) > 2_000);
        assert!(count(&|d| d > 0.0 && d.is_subnormal()) > 200);
        assert!(count(&|d| d == f64::INFINITY) > 100 && count(&f64::is_nan) > 100);
        assert!(count(&|d| d == f64::MAX) > 50 && count(&|d| d < 0.0) > 500);
        assert!(all.contains(&LIMIT) && all.contains(&(LIMIT + 1)));
        let accepted = count(&|d| (1e-6..1.8e13).contains(&d));
        assert!((8_000..16_000).contains(&accepted), "{accepted}");
    }
}

//! IEEE 754 and Unicode examples, and what a calibration's tree gives.

mod common;

use common::*;
use sample::parts::{self, FOCUS};
use sample::tree::{bytes, f64, flag, i64, level, list, packed, raw, text, u32, u64, Record};
use second::names::scalars;
use second::numbers::{double, signed, unsigned};
use second::values::Value;

/// Doubles that are no whole number at all: fractions, large and small, and what is no number.
fn not_whole() -> Vec<f64> {
    let mut all = vec![0.5, 1.0 - f64::EPSILON / 2.0, 1.5, 2.9, 1e-300];
    all.extend([4_503_599_627_370_495.5, 1_000_000.000_000_1, f64::INFINITY]);
    // the smallest and the largest subnormal, a quiet and a signalling NaN
    all.extend([1, (1 << 52) - 1, 0x7FF8 << 48, (0x7FF0 << 48) + 1].map(f64::from_bits));
    let negative: Vec<f64> = all.iter().map(|number| -number).collect();
    all.extend(negative);
    all
}

#[test]
fn doubles_with_a_fraction_are_absent() {
    for number in not_whole() {
        let value = Value::Double(number);
        assert_eq!((unsigned(&value), signed(&value)), (None, None), "{number}");
    }
}

#[test]
fn unsigned_readings() {
    let of = |number: f64| unsigned(&Value::Double(number));
    assert_eq!(of(-0.0), Some(0));
    assert_eq!(of(2.0), Some(2));
    assert_eq!(of(-1.0), None);
    assert_eq!(of(4_503_599_627_370_497.0), Some((1 << 52) + 1));
    assert_eq!(of(9_007_199_254_740_994.0), Some((1 << 53) + 2));
    assert_eq!(of(9_223_372_036_854_775_808.0), Some(1 << 63));
    assert_eq!(of(-9_223_372_036_854_775_808.0), None);
    assert_eq!(of(18_446_744_073_709_549_568.0), Some(u64::MAX - 2047));
    assert_eq!(of(18_446_744_073_709_551_616.0), None);
    assert_eq!(of(1e300), None);
    assert_eq!(unsigned(&Value::Whole(-1)), None);
    assert_eq!(unsigned(&Value::Whole(u64::MAX as i128)), Some(u64::MAX));
    assert_eq!(unsigned(&Value::Flag(true)), Some(1));
    assert_eq!(unsigned(&Value::Text(0, 1)), None);
}

#[test]
fn signed_readings() {
    let of = |number: f64| signed(&Value::Double(number));
    assert_eq!(of(-0.0), Some(0));
    assert_eq!(of(-2.0), Some(-2));
    assert_eq!(of(-9_223_372_036_854_775_808.0), Some(i64::MIN));
    assert_eq!(of(-9_223_372_036_854_777_856.0), None);
    assert_eq!(of(9_223_372_036_854_774_784.0), Some(i64::MAX - 1023));
    assert_eq!(of(9_223_372_036_854_775_808.0), None);
    assert_eq!(of(1e30), None);
    assert_eq!(of(-1e30), None);
    assert_eq!(signed(&Value::Whole(1 << 63)), None);
    assert_eq!(signed(&Value::Whole((1 << 63) - 1)), Some(i64::MAX));
    assert_eq!(signed(&Value::Flag(true)), Some(1));
}

#[test]
fn doubles_of_whole_numbers() {
    let of = |number: i128| double(&Value::Whole(number));
    assert_eq!(of((1 << 53) + 1), Some(9007199254740992.0));
    assert_eq!(of((1 << 53) + 3), Some(9007199254740996.0));
    assert_eq!(of(u64::MAX as i128), Some(18446744073709551616.0));
    assert_eq!(of(-5), Some(-5.0));
    assert_eq!(double(&Value::Flag(true)), Some(1.0));
    assert_eq!(double(&Value::Bytes(0, 8)), None);
}

#[test]
fn surrogates() {
    assert_eq!(scalars(&[0xD834, 0xDD1E]), [0x1D11E]);
    assert_eq!(scalars(&[0xD834]), [0xFFFD]);
    assert_eq!(scalars(&[0xDD1E, 0xD834]), [0xFFFD, 0xFFFD]);
    assert_eq!(scalars(&[0xD834, 0xD834, 0xDD1E]), [0xFFFD, 0x1D11E]);
    assert_eq!(scalars(&[0xD834, 0x61]), [0xFFFD, 0x61]);
    assert_eq!(scalars(&[0xDBFF, 0xDFFF, 0xFFFF, 0]), [0x10FFFF, 0xFFFF, 0]);
}

/// State, x, z class and z of a file with this calibration and a focus loop of step 0.5.
fn calibrated(tree: Record) -> (u64, f32, u64, f32) {
    let experiment = parts::experiment(&[(FOCUS, parts::focus(3, 0.5))]);
    let file = of_trees(&[
        (parts::ATTRIBUTES, parts::attributes(SIZES)),
        (parts::EXPERIMENT, experiment),
        (parts::CALIBRATION, tree),
    ]);
    let summary = opened(&file.finish());
    assert_eq!(summary.x.to_bits(), summary.y.to_bits());
    (summary.calibration, summary.x, summary.class, summary.z)
}

fn size(record: Record) -> (u64, f32, u64, f32) {
    calibrated(level("SLxCalibration", vec![record]))
}

#[test]
fn pixel_sizes() {
    let none = (0, 0.0, 0, 0.0);
    assert_eq!(size(f64("dCalibration", 0.1)), (1, 0.1, 1, 0.5));
    assert_eq!(size(f64("dCalibration", 0.0)), none);
    assert_eq!(size(f64("dCalibration", -1.0)), none);
    assert_eq!(size(f64("dCalibration", f64::NAN)), none);
    assert_eq!(size(text("dCalibration", "1")), none);
    assert_eq!(size(flag("dCalibration", 2)), (1, 1.0, 1, 0.5));
    assert_eq!(size(i64("dCalibration", -1)), none);
    // Above 0 as a double; the f32 nearest to it is +0, or infinity.
    assert_eq!(size(f64("dCalibration", 1e-50)), (1, 0.0, 1, 0.5));
    assert_eq!(size(f64("dCalibration", 1e50)), (1, f32::INFINITY, 1, 0.5));
    // To f64 first, and from there to f32: each time to the even one.
    let twice = u64("dCalibration", (1 << 60) + (1 << 36) + 1);
    assert_eq!(size(twice), (1, (1u64 << 60) as f32, 1, 0.5));
}

#[test]
fn calibration_trees() {
    let none = (0, 0.0, 0, 0.0);
    let good = f64("dCalibration", 0.1);
    let after = |record: Record| calibrated(level("SLxCalibration", vec![good.clone(), record]));
    assert_eq!(after(u32("dAspect", 1)), (1, 0.1, 1, 0.5));
    // With a fault behind it a good value does not count; where the first fault is a packed record, that is state 2.
    assert_eq!(after(raw(12, "x", &[])), none);
    assert_eq!(after(raw(5, "x", &[1])), none);
    assert_eq!(after(packed(&[0; 3])), (2, 0.0, 0, 0.0));
    let last = vec![raw(13, "x", &[]), packed(&[0; 12])];
    assert_eq!(calibrated(level("SLxCalibration", last)), none);
    assert_eq!(calibrated(list("SLxCalibration", vec![good.clone()])), none);
    assert_eq!(calibrated(bytes("SLxCalibration", &[1])), none);
    assert_eq!(after(f64("dCalibration", 0.25)), (1, 0.25, 1, 0.5));
}

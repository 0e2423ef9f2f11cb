//! Fields that are read as whole numbers: each with its usual number as a double, and with the doubles at the limits of such
//! a reading.

use crate::questions::in_short;
use crate::step::Step;
use sample::whole::{Field, DOUBLES, FIELDS, PREFERRED};

pub fn all() -> Vec<Step> {
    let mut steps: Vec<Step> = FIELDS.iter().flat_map(doubles).collect();
    steps.extend(usual(&PREFERRED));
    steps
}

fn doubles(field: &Field) -> Vec<Step> {
    let mut steps = usual(field);
    for (label, bits) in DOUBLES {
        steps.extend(asked(field, label, bits));
    }
    steps
}

fn usual(field: &Field) -> Vec<Step> {
    let double = f64::from(field.usual);
    asked(field, &format!("{double:.1}"), double.to_bits())
}

fn asked(field: &Field, double: &str, bits: u64) -> Vec<Step> {
    let label = format!("{} {double}", field.label);
    in_short(&label, field.with_double(bits))
}

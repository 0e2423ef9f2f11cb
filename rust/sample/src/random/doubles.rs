//! Doubles in fields that are read as whole numbers. In most files each of them is a whole number that the reading takes; in
//! a few files any may stand there, and these cannot be held against a reader that cuts off fractions.

use crate::parts::{ATTRIBUTES, CHANNELS, EXPERIMENT};
use crate::rng::Rng;
use crate::tree::{double_bits, f64, named, Record, Value, F64};
use crate::whole::DOUBLES;

const UNSIGNED: [&str; 8] = [
    "uiWidth",
    "uiWidthBytes",
    "uiHeight",
    "uiComp",
    "uiBpcInMemory",
    "uiCount",
    "uiColor",
    "uiCompCount",
];
const SIGNED: [&str; 2] = ["eCompression", "eType"];
/// A list of unsigned numbers.
const LIST: &str = "pItemValid";

/// Whole numbers of both readings, and those of one.
const WHOLE: [f64; 9] = [
    0.0,
    -0.0,
    1.0,
    2.0,
    4.0,
    8.0,
    11.0,
    9_007_199_254_740_994.0,
    9_223_372_036_854_774_784.0,
];
const WHOLE_UNSIGNED: [f64; 2] = [9_223_372_036_854_775_808.0, 18_446_744_073_709_549_568.0];
const WHOLE_SIGNED: [f64; 2] = [-1.0, -9_223_372_036_854_775_808.0];

/// What becomes of the doubles in a file.
#[derive(Clone, Copy, PartialEq, Eq)]
pub enum Doubles {
    Whole,
    Any,
}

/// A record that is read as a whole number.
struct Field<'a> {
    record: &'a mut Record,
    signed: bool,
}

pub fn random(rng: &mut Rng) -> Doubles {
    if rng.one_in(12) {
        Doubles::Any
    } else {
        Doubles::Whole
    }
}

/// Settles the doubles of a tree: they become whole ones, or one field more becomes a double.
pub fn settle(rng: &mut Rng, doubles: Doubles, chunk: &str, tree: &mut Record) {
    if ![ATTRIBUTES, EXPERIMENT, CHANNELS].contains(&chunk) {
        return;
    }
    let mut fields = Vec::new();
    collect(std::slice::from_mut(tree), false, &mut fields);
    match doubles {
        Doubles::Whole => fields.iter_mut().for_each(|field| field.make_whole(rng)),
        Doubles::Any if !fields.is_empty() && rng.one_in(2) => pick(rng, fields).make_double(rng),
        Doubles::Any => {}
    }
}

/// One of some fields, by its name first: each name comes as often as another.
fn pick<'a>(rng: &mut Rng, mut fields: Vec<Field<'a>>) -> Field<'a> {
    let mut names: Vec<Vec<u16>> = fields.iter().map(|f| f.record.name.clone()).collect();
    names.sort();
    names.dedup();
    let name = &names[rng.place(names.len())];
    fields.retain(|field| field.record.name == *name);
    fields.swap_remove(rng.place(fields.len()))
}

/// The fields among records and below them; unnamed ones of a list count too.
fn collect<'a>(records: &'a mut [Record], listed: bool, found: &mut Vec<Field<'a>>) {
    for record in records {
        let is = |name: &&str| record.name == named(name);
        let signed = SIGNED.iter().any(is);
        let unsigned = UNSIGNED.iter().any(is) || listed && record.name.is_empty();
        let below = is(&LIST);
        if matches!(record.value, Value::Raw(_)) {
            if signed || unsigned {
                found.push(Field { record, signed });
            }
        } else if let Some(level) = record.level_mut() {
            collect(&mut level.records, below, found);
        }
    }
}

impl Field<'_> {
    /// The double that the record has, if it is one.
    fn double(&self) -> Option<f64> {
        match &self.record.value {
            Value::Raw(bytes) if self.record.kind == F64 => {
                let bits = bytes.as_slice().try_into().ok();
                bits.map(|bits| f64::from_bits(u64::from_le_bytes(bits)))
            }
            _ => None,
        }
    }

    /// Whether the reading of this field takes a double.
    fn takes(&self, double: f64) -> bool {
        let range = if self.signed {
            -9_223_372_036_854_775_808.0..9_223_372_036_854_775_808.0
        } else {
            0.0..18_446_744_073_709_551_616.0
        };
        double.trunc() == double && range.contains(&double)
    }

    fn put(&mut self, double: Record) {
        self.record.kind = double.kind;
        self.record.value = double.value;
    }

    fn make_whole(&mut self, rng: &mut Rng) {
        if self.double().is_none_or(|double| self.takes(double)) {
            return;
        }
        let own = if self.signed {
            WHOLE_SIGNED
        } else {
            WHOLE_UNSIGNED
        };
        let all: Vec<f64> = WHOLE.into_iter().chain(own).collect();
        self.put(f64("", rng.pick(&all)));
    }

    fn make_double(mut self, rng: &mut Rng) {
        let (_, limit) = rng.pick(&DOUBLES);
        let fraction = rng.pick(&[1.5f64, 2.9, 3.25, 4.5, 16.1]).to_bits();
        self.put(double_bits("", rng.pick(&[limit, fraction])));
    }
}

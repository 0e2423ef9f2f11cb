//! Doubles that stand where a whole number is read and are none. The original cuts off what is behind the point and takes
//! the nearest number of its range; here such a double is as good as not there (change request 4). So files that have one
//! are not compared with the original.
//!
//! Looked at are the trees of attributes, experiment and channels, each as the last map entry of its name has it, if its
//! chunk bears that name and all of it can be read, whatever else is wrong with the file. In such a tree, with repeated
//! names merged, every value at any depth counts that has the name of a field, whether or not a call comes to it, and every
//! element of a list pItemValid. That is all that a call reads as a whole number, and somewhat more. A whole number past u32
//! is absent in the original too, so that is no reason to leave a file out. What a whole number is, is said here once more: a
//! reading that takes too few would else leave out the files that show it.

use sample::parts::{ATTRIBUTES, CHANNELS, EXPERIMENT};
use second::chunks::part;
use second::map::{self, Map};
use second::names::is;
use second::refusal::MISSING;
use second::trees;
use second::values::{self, Level, Slot, Value};

/// How a field is read.
#[derive(Clone, Copy)]
enum Kind {
    Unsigned,
    Signed,
    /// A list, each element of it as an unsigned number.
    List,
}

type Field = (&'static str, Kind);

const IN_ATTRIBUTES: [Field; 6] = [
    ("uiWidth", Kind::Unsigned),
    ("uiWidthBytes", Kind::Unsigned),
    ("uiHeight", Kind::Unsigned),
    ("uiComp", Kind::Unsigned),
    ("uiBpcInMemory", Kind::Unsigned),
    ("eCompression", Kind::Signed),
];
const IN_EXPERIMENT: [Field; 3] = [
    ("eType", Kind::Signed),
    ("uiCount", Kind::Unsigned),
    ("pItemValid", Kind::List),
];
const IN_CHANNELS: [Field; 2] = [("uiColor", Kind::Unsigned), ("uiCompCount", Kind::Unsigned)];

const TREES: [(&str, &[Field]); 3] = [
    (ATTRIBUTES, &IN_ATTRIBUTES),
    (EXPERIMENT, &IN_EXPERIMENT),
    (CHANNELS, &IN_CHANNELS),
];

/// 2^63 and 2^64.
const TWO_63: f64 = 9_223_372_036_854_775_808.0;
const TWO_64: f64 = 18_446_744_073_709_551_616.0;

/// The fields of a file that have such a double, by name; a name comes as often as it has one.
pub fn not_whole(file: &[u8]) -> Vec<&'static str> {
    let mut found = Vec::new();
    for (tree, fields) in TREES {
        if let Some(root) = root(file, tree) {
            in_level(&root, fields, &mut found);
        }
    }
    found
}

/// The tree of a name, whatever table it takes.
fn root(file: &[u8], name: &str) -> Option<Level> {
    let data = part(file, map::place(file).ok()?)?;
    let map = Map::read(data).ok()?;
    let data = map.chunk(file, name.as_bytes(), MISSING).ok()?;
    let entries = trees::read(file, data, usize::MAX).ok()?;
    Some(values::root(file, &entries))
}

fn in_level(level: &Level, fields: &[Field], found: &mut Vec<&'static str>) {
    for slot in &level.slots {
        found.extend(in_slot(slot, fields));
        in_value(&slot.value, fields, found);
    }
}

fn in_value(value: &Value, fields: &[Field], found: &mut Vec<&'static str>) {
    match value {
        Value::Level(level) => in_level(level, fields, found),
        Value::List(list) => list.iter().for_each(|value| in_value(value, fields, found)),
        _ => {}
    }
}

/// The name of a slot that is such a field and has such a double.
fn in_slot(slot: &Slot, fields: &[Field]) -> Option<&'static str> {
    let field = fields.iter().find(|(name, _)| is(&slot.name, name));
    let found = field.filter(|(_, kind)| kind.misses(&slot.value));
    found.map(|(name, _)| *name)
}

impl Kind {
    /// Whether this reading does not take the value, and that is a double.
    fn misses(self, value: &Value) -> bool {
        match (self, value) {
            (Kind::Unsigned, &Value::Double(double)) => !whole(double, 0.0, TWO_64),
            (Kind::Signed, &Value::Double(double)) => !whole(double, -TWO_63, TWO_63),
            (Kind::List, Value::List(list)) => list.iter().any(|v| Kind::Unsigned.misses(v)),
            _ => false,
        }
    }
}

/// Whether a double is a whole number from one on and below another. An infinity or NaN has a remainder that is NaN.
fn whole(double: f64, from: f64, below: f64) -> bool {
    double % 1.0 == 0.0 && (from..below).contains(&double)
}

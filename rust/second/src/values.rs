//! Document 01, Trees: what the entries of a tree mean. Each has a value, of a kind that goes by its type; those of
//! type 11 become levels and lists.

use crate::bytes::{u32_at, u64_at};
use crate::names::{is, scalars, units_at};
use crate::trees::{self, Entry};
use std::collections::HashMap;

#[derive(Clone, Debug, PartialEq)]
pub enum Value {
    Flag(bool),
    Whole(i128),
    Double(f64),
    /// Its first byte's position and its units.
    Text(u64, u64),
    /// Its first byte's position and its bytes.
    Bytes(u64, u64),
    Level(Level),
    List(Vec<Value>),
}

/// A name, empty where there is none, and the value that it has in the end.
#[derive(Clone, Debug, PartialEq)]
pub struct Slot {
    pub name: Vec<u32>,
    pub value: Value,
}

#[derive(Clone, Debug, Default, PartialEq)]
pub struct Level {
    pub slots: Vec<Slot>,
}

impl Level {
    pub fn get(&self, name: &str) -> Option<&Value> {
        let found = self.slots.iter().find(|slot| is(&slot.name, name));
        found.map(|slot| &slot.value)
    }

    /// The level under a name. A value of another kind is none, nor is a level that became a list.
    pub fn level(&self, name: &str) -> Option<&Level> {
        self.get(name).and_then(Value::as_level)
    }
}

impl Value {
    pub fn as_level(&self) -> Option<&Level> {
        match self {
            Value::Level(level) => Some(level),
            _ => None,
        }
    }

    /// What stands in a list or a level, one after the other; in any other value nothing.
    pub fn parts(&self) -> Vec<&Value> {
        match self {
            Value::List(list) => list.iter().collect(),
            Value::Level(level) => level.slots.iter().map(|slot| &slot.value).collect(),
            _ => Vec::new(),
        }
    }
}

/// What the entries of a tree say: the outermost record alone in a level.
pub fn root(file: &[u8], entries: &[Entry]) -> Level {
    let mut building = Building {
        file,
        entries,
        next: 0,
    };
    building.level(0)
}

struct Building<'a> {
    file: &'a [u8],
    entries: &'a [Entry],
    next: usize,
}

impl Building<'_> {
    /// The children of one parent. Entries are in file order, so these and all below them come next.
    fn level(&mut self, parent: u64) -> Level {
        let mut merging = Merging::default();
        while let Some(&entry) = self.entries.get(self.next) {
            if entry.parent != parent {
                break;
            }
            self.next += 1;
            let value = self.value(entry);
            let name = scalars(&units_at(self.file, entry.name, entry.units));
            merging.put(name, value);
        }
        merging.level
    }

    fn value(&mut self, entry: Entry) -> Value {
        let at = entry.value as usize;
        let word = u64_at(self.file, at).unwrap_or(0);
        let half = u32_at(self.file, at).unwrap_or(0);
        match entry.kind as u8 {
            trees::FLAG => Value::Flag(self.file.get(at).is_some_and(|&b| b != 0)),
            trees::I32 => Value::Whole(half as i32 as i128),
            trees::U32 => Value::Whole(half as i128),
            trees::I64 => Value::Whole(word as i64 as i128),
            trees::U64 | trees::POINTER => Value::Whole(word as i128),
            trees::F64 => Value::Double(f64::from_bits(word)),
            trees::TEXT => Value::Text(entry.value, entry.size / 2),
            trees::BYTES => Value::Bytes(entry.value, entry.size),
            _ => collapsed(self.level(self.next as u64)),
        }
    }
}

/// What a level is in the end: itself, or a list where it has the unnamed place alone. That is the list which stands
/// there, or one of the value which does.
fn collapsed(mut level: Level) -> Value {
    if level.slots.len() != 1 || !level.slots[0].name.is_empty() {
        return Value::Level(level);
    }
    match level.slots.remove(0).value {
        Value::List(list) => Value::List(list),
        value => Value::List(vec![value]),
    }
}

/// A level while its records come in, and where each name stands.
#[derive(Default)]
struct Merging {
    level: Level,
    places: HashMap<Vec<u32>, usize>,
}

impl Merging {
    /// A name that came before has its place already, and its value gives way to the new one. A new name gets a place
    /// behind the others. All unnamed values share one.
    fn put(&mut self, name: Vec<u32>, value: Value) {
        let Some(&place) = self.places.get(&name) else {
            self.places.insert(name.clone(), self.level.slots.len());
            self.level.slots.push(Slot { name, value });
            return;
        };
        let slot = &mut self.level.slots[place].value;
        if name.is_empty() {
            append(slot, value);
        } else {
            *slot = value;
        }
    }
}

/// A further unnamed value becomes the last element of the list that is there, or the second of a new one.
fn append(first: &mut Value, value: Value) {
    if let Value::List(list) = first {
        list.push(value);
        return;
    }
    let old = std::mem::replace(first, Value::List(Vec::new()));
    *first = Value::List(vec![old, value]);
}

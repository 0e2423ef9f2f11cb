//! The tree of a chunk.

use crate::bytes::{part, u32_at, u64_at};
use crate::raw::ENTRY_BYTES;
use crate::text::decoded;
use std::fmt;

/// The tree of a chunk: one entry for each record, in file order. It borrows names and values from the file.
#[derive(Clone)]
pub struct Tree<'a> {
    file: &'a [u8],
    /// Whole entries, all of them used.
    table: Vec<u8>,
}

/// One record of a tree.
#[derive(Clone, Copy)]
pub struct Entry<'t> {
    tree: &'t Tree<'t>,
    index: usize,
}

/// What a record holds.
#[derive(Clone, Debug, PartialEq)]
pub enum Value<'t> {
    /// A flag (type 1).
    Flag(bool),
    /// A whole number (type 2).
    I32(i32),
    /// A whole number (type 3).
    U32(u32),
    /// A whole number (type 4).
    I64(i64),
    /// A whole number (type 5).
    U64(u64),
    /// A double (type 6).
    F64(f64),
    /// A pointer (type 7), of no use outside the program that wrote it.
    Pointer(u64),
    /// Text (type 8). A lone surrogate in it is U+FFFD.
    Text(String),
    /// Bytes (type 9).
    Bytes(&'t [u8]),
    /// Records, the [children](Entry::children) of this one (type 11).
    Level,
}

impl<'a> Tree<'a> {
    /// The entries of a table, which end at the first one of type 0.
    pub(crate) fn new(file: &'a [u8], mut table: Vec<u8>) -> Tree<'a> {
        let entries = table.chunks_exact(ENTRY_BYTES);
        let used = entries.take_while(|entry| u64_at(entry, 0) != 0).count();
        table.truncate(used * ENTRY_BYTES);
        table.shrink_to_fit();
        Tree { file, table }
    }

    /// How many entries there are.
    pub fn len(&self) -> usize {
        self.table.len() / ENTRY_BYTES
    }

    /// Whether there are none.
    pub fn is_empty(&self) -> bool {
        self.table.is_empty()
    }

    /// Entry `index`, counted from 0.
    pub fn entry(&self, index: usize) -> Option<Entry<'_>> {
        (index < self.len()).then_some(Entry { tree: self, index })
    }

    /// All entries, in file order: each level before its children.
    pub fn entries(&self) -> impl Iterator<Item = Entry<'_>> {
        (0..self.len()).map(|index| Entry { tree: self, index })
    }

    /// The entry at a path of names from the outermost level on. Of several that have one name in one level it is the last,
    /// since a name that comes again takes the last value. Unnamed entries are not found by a name.
    pub fn find(&self, path: &[&str]) -> Option<Entry<'_>> {
        let (first, inner) = path.split_first()?;
        let start = last_named(self.entries().filter(|entry| entry.level() == 0), first)?;
        inner
            .iter()
            .try_fold(start, |entry, name| entry.child(name))
    }

    fn word(&self, index: usize, word: usize) -> u64 {
        u64_at(&self.table, index * ENTRY_BYTES + 8 * word)
    }
}

impl<'t> Entry<'t> {
    fn word(&self, word: usize) -> u64 {
        self.tree.word(self.index, word)
    }

    /// Its number in the tree, counted from 0.
    pub fn index(&self) -> usize {
        self.index
    }

    /// The record's type, as the file has it.
    pub fn kind(&self) -> u64 {
        self.word(0)
    }

    /// Its name, empty if it has none. A lone surrogate in it is U+FFFD.
    pub fn name(&self) -> String {
        decoded(self.tree.file, self.word(1), self.word(2))
    }

    /// The position of its value in the file; of a level, of its first child.
    pub fn position(&self) -> u64 {
        self.word(3)
    }

    /// The bytes of its value in the file.
    pub fn bytes(&self) -> &'t [u8] {
        part(self.tree.file, self.word(3), self.word(4))
    }

    /// Its value.
    pub fn value(&self) -> Value<'t> {
        let bytes = self.bytes();
        match self.kind() {
            1 => Value::Flag(bytes.iter().any(|&byte| byte != 0)),
            2 => Value::I32(u32_at(bytes, 0) as i32),
            3 => Value::U32(u32_at(bytes, 0)),
            4 => Value::I64(u64_at(bytes, 0) as i64),
            5 => Value::U64(u64_at(bytes, 0)),
            6 => Value::F64(f64::from_bits(u64_at(bytes, 0))),
            7 => Value::Pointer(u64_at(bytes, 0)),
            8 => Value::Text(decoded(self.tree.file, self.word(3), self.word(4) / 2)),
            11 => Value::Level,
            _ => Value::Bytes(bytes),
        }
    }

    /// The number of its level plus one, 0 for the outermost.
    fn level(&self) -> usize {
        usize::try_from(self.word(5)).unwrap_or(0)
    }

    /// The level that it stands in; none for the outermost.
    pub fn parent(&self) -> Option<Entry<'t>> {
        let index = self.level().checked_sub(1)?;
        let tree = self.tree;
        (index < self.index).then_some(Entry { tree, index })
    }

    /// How many levels it stands in.
    pub fn depth(&self) -> usize {
        std::iter::successors(self.parent(), Entry::parent).count()
    }

    /// The records of a level, in file order; none for other entries.
    pub fn children(&self) -> impl Iterator<Item = Entry<'t>> {
        let (tree, level) = (self.tree, self.index + 1);
        let after = (level..tree.len()).map(move |index| Entry { tree, index });
        let below = after.take_while(move |entry| entry.level() >= level);
        below.filter(move |entry| entry.level() == level)
    }

    /// The child of a name: the last of several, since a name that comes again takes the last value. Unnamed children are
    /// not found by a name.
    pub fn child(&self, name: &str) -> Option<Entry<'t>> {
        last_named(self.children(), name)
    }
}

/// The last entry that has a name.
fn last_named<'t>(entries: impl Iterator<Item = Entry<'t>>, name: &str) -> Option<Entry<'t>> {
    let named = entries.filter(|entry| !name.is_empty() && entry.name() == name);
    named.last()
}

impl fmt::Debug for Tree<'_> {
    fn fmt(&self, f: &mut fmt::Formatter<'_>) -> fmt::Result {
        f.debug_list().entries(self.entries()).finish()
    }
}

impl fmt::Debug for Entry<'_> {
    fn fmt(&self, f: &mut fmt::Formatter<'_>) -> fmt::Result {
        let mut out = f.debug_struct("Entry");
        out.field("depth", &self.depth());
        out.field("name", &self.name());
        out.field("value", &self.value()).finish()
    }
}

#[cfg(test)]
mod tests {
    use super::*;

    /// A tree of numbers (type 3): the place of each one's level plus one, its name and its value, a letter each.
    fn tree<'a>(file: &'a mut Vec<u8>, records: &[(u64, &str, u8)]) -> Tree<'a> {
        let mut table = Vec::new();
        for (parent, name, value) in records {
            let start = file.len() as u64;
            file.extend(name.encode_utf16().flat_map(u16::to_le_bytes));
            let units = name.len() as u64;
            file.extend([*value, 0, 0, 0]);
            for word in [3, start, units, start + 2 * units, 4, *parent] {
                table.extend_from_slice(&word.to_le_bytes());
            }
        }
        Tree::new(file, table)
    }

    fn found(tree: &Tree, path: &[&str]) -> Option<Value<'static>> {
        tree.find(path)
            .map(|entry| Value::U32(u32_at(entry.bytes(), 0)))
    }

    #[test]
    fn the_last_of_a_name_is_found_at_every_level() {
        let mut file = Vec::new();
        let records = [
            (0, "a", 1),
            (1, "b", 2),
            (1, "b", 3),
            (0, "a", 4),
            (4, "b", 5),
        ];
        let tree = tree(&mut file, &records);
        assert_eq!(found(&tree, &["a"]), Some(Value::U32(4)));
        assert_eq!(found(&tree, &["a", "b"]), Some(Value::U32(5)));
        let first = tree.entry(0).and_then(|entry| entry.child("b"));
        assert_eq!(first.map(|entry| entry.value()), Some(Value::U32(3)));
    }

    #[test]
    fn what_has_no_name_is_not_found_by_one() {
        let mut file = Vec::new();
        let tree = tree(&mut file, &[(0, "", 1), (0, "a", 2), (2, "", 3)]);
        assert_eq!(found(&tree, &[""]), None);
        assert_eq!(found(&tree, &["a", ""]), None);
        assert_eq!(found(&tree, &["a"]), Some(Value::U32(2)));
    }
}

//! Levels of many names: opening compares the names with each other where it counts or walks the entries of a level.

use crate::files::{self, Units};
use crate::opening::{Opening, Others};
use crate::table::Row;
use crate::timing::race;

/// Counting and walking a level of so many names.
pub fn rows(names: usize, others: Others, repetitions: u32) -> Vec<Row> {
    let row = |what: String, file: &[u8], frames| {
        let opening = Opening {
            file,
            entries: names,
            frames,
        };
        Row {
            what,
            bytes: file.len(),
            best: race(repetitions, 1, opening.turns(others)),
            targets: vec![],
        }
    };
    let counted = |how: &str, units| {
        let file = files::counted_names(names, units);
        row(format!("count {names} names, {how}"), &file, names)
    };
    let walked = |how: &str, levels| {
        let file = files::walked_names(names, levels);
        row(format!("walk {names} names, {how}"), &file, 1)
    };
    vec![
        counted("first units differ", Units::First),
        counted("last units differ", Units::Last),
        counted("last, all above U+E000", Units::LastAbove),
        walked("none a level", false),
        walked("each a level", true),
    ]
}

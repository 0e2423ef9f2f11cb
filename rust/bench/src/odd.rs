//! Opening files that are slow on purpose, in three sizes each: how the time grows, beside the original's.

use crate::families::{Family, ALL, NESTINGS};
use crate::opening::{Opening, Others};
use crate::table::{Row, Target};
use crate::timing::{race_within, Who};
use std::time::Duration;

/// How long the files are timed, and how large they are.
#[derive(Clone, Copy)]
pub struct Limits {
    pub repetitions: u32,
    /// No further round of a row begins after this.
    pub most: Duration,
    /// The sizes are divided by this.
    pub shrink: usize,
}

/// A family's rows, by size, and how the times grow.
pub struct Grown {
    pub rows: Vec<Row>,
    pub told: String,
}

/// Every family, one after another.
pub fn families(others: Others, limits: Limits) -> impl Iterator<Item = Grown> {
    ALL.iter().map(move |family| grown(family, others, limits))
}

fn grown(family: &Family, others: Others, limits: Limits) -> Grown {
    let largest = (family.most / limits.shrink).max(4 * NESTINGS);
    let sizes = [largest / 4, largest / 2, largest];
    let rows = sizes.map(|size| row(family, size, others, limits));
    let told = [Who::Proved, Who::Original].map(|who| exponents(who, &rows));
    Grown {
        told: format!("    size^x: proved {}; original {}", told[0], told[1]),
        rows: rows.into(),
    }
}

fn row(family: &Family, size: usize, others: Others, limits: Limits) -> Row {
    let made = family.file(size);
    let opening = Opening {
        file: &made.file,
        entries: made.entries,
        frames: made.frames,
    };
    let turns = opening.turns(others);
    Row {
        what: format!("open {size} {}", family.what),
        bytes: made.file.len(),
        best: race_within(limits.most, limits.repetitions, turns),
        targets: vec![Target::new(Who::Original, 2.0)],
    }
}

/// The exponents by which a contender's time grows: from the last doubling, and from all.
fn exponents(who: Who, rows: &[Row; 3]) -> String {
    let times = rows.each_ref().map(|row| row.time(who));
    match times {
        [Some(small), Some(middle), Some(large)] => format!(
            "{:.2} in the last doubling, {:.2} in both",
            (large / middle).log2(),
            (large / small).log2() / 2.0
        ),
        _ => "not run".to_string(),
    }
}

#[cfg(test)]
mod tests {
    use super::*;
    use crate::timing::Best;

    fn taking(seconds: f64) -> Row {
        let mut best = Best::default();
        best[Who::Proved as usize] = Some(seconds);
        Row {
            what: String::new(),
            bytes: 0,
            best,
            targets: vec![],
        }
    }

    #[test]
    fn exponents_are_of_the_last_doubling_and_of_both() {
        let rows = [taking(1.0), taking(2.0), taking(8.0)];
        let told = exponents(Who::Proved, &rows);
        assert_eq!(told, "2.00 in the last doubling, 1.50 in both");
        assert_eq!(exponents(Who::Original, &rows), "not run");
    }
}

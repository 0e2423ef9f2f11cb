//! Document 01, Trees: names are UTF-16, and compared with U+FFFD for each surrogate that has no partner.

use crate::bytes::u16_at;

const REPLACEMENT: u32 = 0xFFFD;

fn leads(unit: u16) -> bool {
    (0xD800..0xDC00).contains(&unit)
}

fn trails(unit: u16) -> bool {
    (0xDC00..0xE000).contains(&unit)
}

/// The scalar values that units stand for.
pub fn scalars(units: &[u16]) -> Vec<u32> {
    let mut out = Vec::with_capacity(units.len());
    let mut at = 0;
    while at < units.len() {
        let unit = units[at];
        at += 1;
        if leads(unit) && at < units.len() && trails(units[at]) {
            let high = (unit as u32 - 0xD800) << 10;
            out.push(0x10000 + high + (units[at] as u32 - 0xDC00));
            at += 1;
        } else if leads(unit) || trails(unit) {
            out.push(REPLACEMENT);
        } else {
            out.push(unit as u32);
        }
    }
    out
}

/// `count` units at `start` of the file; those outside it are left out.
pub fn units_at(file: &[u8], start: u64, count: u64) -> Vec<u16> {
    let places = (0..count as usize).map(|i| start as usize + 2 * i);
    places.filter_map(|at| u16_at(file, at)).collect()
}

/// Whether a name is these letters.
pub fn is(name: &[u32], letters: &str) -> bool {
    name.iter().copied().eq(letters.chars().map(u32::from))
}

//! How deep the stack gets in the calls of the C interface, over files that take much of it, and what the header says.

use crate::files::DEEP;
use crate::memory;
use crate::nested;
use nd2::raw::{self, CHANNEL_BYTES, ENTRY_BYTES, FRAME_BYTES, SHEET_HEAD_BYTES, SUMMARY_BYTES};
use nd2::Reader;
use sample::parts;
use std::io;

const HEADER: &str = include_str!("../../../include/nd2.h");
const BOUND: &str = "#define ND2_STACK_BYTES ";

const TREES: [&str; 5] = [
    parts::ATTRIBUTES,
    parts::EXPERIMENT,
    parts::CALIBRATION,
    parts::CHANNELS,
    DEEP,
];

/// More than any of the files needs.
const ENTRIES: usize = 20_000;
/// The largest planes that are read; of a random file they may be larger.
const SAMPLES: u64 = 1 << 16;
const RECORDS: usize = 1 << 11;

/// The stack that the header says no call takes more than.
pub fn bound() -> Option<usize> {
    let told = HEADER.lines().find_map(|line| line.strip_prefix(BOUND))?;
    told.split_whitespace().next()?.parse().ok()
}

/// The most bytes of stack, and what took them.
#[derive(Debug, Default)]
pub struct Deepest {
    pub bytes: usize,
    pub call: &'static str,
    pub file: String,
}

impl Deepest {
    pub fn within_bound(&self) -> bool {
        bound().is_some_and(|bound| self.bytes <= bound)
    }

    pub fn told(&self) -> String {
        let Deepest { bytes, call, file } = self;
        let verdict = if self.within_bound() { "met" } else { "missed" };
        let bound = bound().unwrap_or(0);
        format!("{bytes} bytes at most, in {call} on {file} (ND2_STACK_BYTES {bound}: {verdict})")
    }
}

/// What is lent to the calls.
struct Lent<'f> {
    file: &'f [u8],
    summary: [u8; SUMMARY_BYTES],
    table: Vec<u8>,
    samples: Vec<u8>,
    sheet: Vec<u8>,
    row: Vec<u8>,
    register: Vec<u8>,
}

impl<'f> Lent<'f> {
    fn new(file: &'f [u8]) -> Lent<'f> {
        let plane = Reader::open(file).map_or(0, |reader| reader.summary().plane_bytes());
        let plane = plane.min(SAMPLES) as usize;
        Lent {
            file,
            summary: [1; SUMMARY_BYTES],
            table: vec![1; ENTRIES * ENTRY_BYTES],
            samples: vec![1; plane],
            sheet: vec![1; SHEET_HEAD_BYTES + plane],
            row: vec![1; RECORDS * CHANNEL_BYTES],
            register: vec![1; RECORDS * FRAME_BYTES],
        }
    }
}

/// A call, and the number that it answers.
type Call = fn(&mut Lent) -> u32;

/// Every call of the header. Opening comes first, for its summary, and a sheet is written before it is read.
const CALLS: [(&str, Call); 9] = [
    ("nd2_open", |l| {
        raw::open(l.file, &mut l.table, &mut l.summary)
    }),
    ("nd2_plane", |l| {
        raw::plane(l.file, &l.summary, [0; 4], &mut l.samples)
    }),
    ("nd2_sheet", |l| {
        raw::sheet(l.file, &l.summary, [0; 4], &mut l.sheet)
    }),
    ("nd2_sheet_read", |l| {
        raw::read_sheet(&l.sheet, &mut l.samples, &mut [0; 3])
    }),
    ("nd2_tree", trees),
    ("nd2_channels", |l| {
        raw::channels(l.file, &l.summary, &mut l.table, &mut l.row)
    }),
    ("nd2_register", |l| {
        raw::register(l.file, &l.summary, &mut l.register)
    }),
    ("nd2_picometres", |l| {
        raw::picometres(l.file, &l.summary, &mut l.table, &mut 0)
    }),
    ("nd2_read_plane", |l| {
        raw::read_plane(l.file, &mut l.table, [0; 4], &mut l.samples)
    }),
];

/// Each tree that a file may have; the largest number.
fn trees(l: &mut Lent) -> u32 {
    let ask = |name: &str| raw::tree(l.file, &l.summary, name.as_bytes(), &mut l.table);
    TREES.map(ask).into_iter().max().unwrap_or(0)
}

/// The most that a call takes, over all files. Each call has to be accepted on one of them.
pub fn deepest() -> io::Result<Deepest> {
    let mut deepest = Deepest::default();
    let mut accepted = [false; CALLS.len()];
    for (name, file) in nested::all() {
        let mut lent = Lent::new(&file);
        for ((call, ask), accepted) in CALLS.into_iter().zip(&mut accepted) {
            let bytes = memory::stack(|| *accepted |= ask(&mut lent) == 0)?;
            if bytes > deepest.bytes {
                let file = name.clone();
                deepest = Deepest { bytes, call, file };
            }
        }
    }
    match CALLS.iter().zip(accepted).find(|(_, accepted)| !accepted) {
        Some(((call, _), _)) => Err(io::Error::other(format!("{call} takes no file"))),
        None => Ok(deepest),
    }
}

#[cfg(test)]
mod tests {
    use super::*;

    #[test]
    fn no_call_takes_more_than_the_header_says() {
        let deepest = deepest().unwrap();
        assert!(deepest.within_bound(), "{}", deepest.told());
    }
}

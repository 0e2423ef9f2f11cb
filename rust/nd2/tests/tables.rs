//! Every length of table around what is needed: the proved reader and the second implementation answer the same number
//! and leave the same bytes in the table.

use nd2::raw::{self, CHANNEL_BYTES, ENTRY_BYTES, SUMMARY_BYTES};
use sample::random;
use second::refusal::TABLE;
use second::{Channel, Summary};

const FILES: u64 = 300;
const NAMES: [&[u8]; 4] = [
    b"ImageAttributesLV!",
    b"ImageMetadataLV!",
    b"ImageCalibrationLV|0!",
    b"ImageMetadataSeqLV|0!",
];
/// Files that need more entries are left out.
const MOST: usize = 300;

fn lent(len: usize) -> Vec<u8> {
    vec![0xEE; len]
}

/// A number and the table that it left, by a call that gets the table.
type Answer = (u32, Vec<u8>);

fn answer(len: usize, call: impl FnOnce(&mut [u8]) -> u32) -> Answer {
    let mut table = lent(len);
    (call(&mut table), table)
}

/// Holds two readers against each other around the fewest entries with which the table is not too short; gives how many
/// lengths that were.
fn around(second: impl Fn(usize) -> Answer, proved: impl Fn(usize) -> Answer, what: &str) -> usize {
    let suffices = |&entries: &usize| second(entries * ENTRY_BYTES).0 != TABLE;
    let Some(needed) = (0..MOST).find(suffices) else {
        return 0;
    };
    let lengths = needed.saturating_sub(2) * ENTRY_BYTES..=(needed + 1) * ENTRY_BYTES;
    for len in lengths.clone() {
        assert!(second(len) == proved(len), "{what}: a table of {len} bytes");
    }
    lengths.count()
}

fn openings(file: &[u8], what: &str) -> usize {
    let second = |len| {
        answer(len, |table| {
            second::open(file, table).err().unwrap_or_default()
        })
    };
    let proved = |len| {
        answer(len, |table| {
            raw::open(file, table, &mut lent(SUMMARY_BYTES))
        })
    };
    around(second, proved, what)
}

fn trees(file: &[u8], summary: &Summary, laid: &[u8], what: &str) -> usize {
    let one = |&name: &&[u8]| {
        let second = |len| answer(len, |table| second::tree(file, summary, name, table));
        let proved = |len| answer(len, |table| raw::tree(file, laid, name, table));
        around(second, proved, what)
    };
    NAMES.iter().map(one).sum()
}

/// The records of the row are held against each other by `compare`; here the number and the table.
fn channels(file: &[u8], summary: &Summary, laid: &[u8], what: &str) -> usize {
    let records = summary.components as usize;
    let second = |len| {
        let mut row = vec![Channel::default(); records];
        answer(len, |table| {
            second::channels(file, summary, table, &mut row)
        })
    };
    let proved = |len| {
        let mut row = lent(records * CHANNEL_BYTES);
        answer(len, |table| raw::channels(file, laid, table, &mut row))
    };
    around(second, proved, what)
}

/// The picometres are held against each other too.
fn picometres(file: &[u8], summary: &Summary, laid: &[u8], what: &str) -> usize {
    let second = |len| answer(len, |table| second::picometres(file, summary, table).0);
    let proved = |len| {
        answer(len, |table| {
            let mut picometres = u64::MAX;
            let number = raw::picometres(file, laid, table, &mut picometres);
            let expected = second::picometres(file, summary, &mut vec![0; table.len()]);
            assert_eq!((number, picometres), expected, "{what}");
            number
        })
    };
    around(second, proved, what)
}

#[test]
fn every_length_around_what_is_needed() {
    let (mut opened, mut read, mut sized) = (0, 0, 0);
    for seed in 0..FILES {
        let file = random::file(seed);
        let what = format!("seed {seed}");
        opened += openings(&file, &what);
        let mut laid = lent(SUMMARY_BYTES);
        let Ok(summary) = second::open(&file, &mut lent(MOST * ENTRY_BYTES)) else {
            continue;
        };
        assert_eq!(
            raw::open(&file, &mut lent(MOST * ENTRY_BYTES), &mut laid),
            0
        );
        read += trees(&file, &summary, &laid, &what);
        read += channels(&file, &summary, &laid, &what);
        sized += picometres(&file, &summary, &laid, &what);
    }
    assert!(
        opened > 10_000 && read > 10_000 && sized > 5_000,
        "{opened}, {read} and {sized} lengths"
    );
}

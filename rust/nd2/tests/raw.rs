//! The C interface as it is: numbers, and what lent bytes hold afterwards.

use nd2::raw::{self, CHANNEL_BYTES, ENTRY_BYTES, FRAME_BYTES, SHEET_HEAD_BYTES, SUMMARY_BYTES};
use sample::roller;

const LENT: u8 = 0xEE;

fn table(entries: usize) -> Vec<u8> {
    vec![LENT; entries * ENTRY_BYTES]
}

fn opened(file: &[u8]) -> Vec<u8> {
    let mut summary = vec![LENT; SUMMARY_BYTES];
    assert_eq!(raw::open(file, &mut table(200), &mut summary), 0);
    summary
}

fn is_zero(bytes: &[u8]) -> bool {
    bytes.iter().all(|&byte| byte == 0)
}

fn is_lent(bytes: &[u8]) -> bool {
    bytes.iter().all(|&byte| byte == LENT)
}

#[test]
fn opening_clears_the_table_and_writes_the_summary() {
    let file = roller(2, 3, 2, 4, 4);
    let (mut table, mut summary) = (table(200), vec![LENT; SUMMARY_BYTES]);
    assert_eq!(raw::open(&file, &mut table, &mut summary), 0);
    assert!(is_zero(&table) && !is_zero(&summary));
}

#[test]
fn a_refused_opening_clears_both() {
    let file = roller(2, 3, 2, 4, 4);
    for (file, entries, bytes, number) in [
        (&file[..], 200, SUMMARY_BYTES - 1, 20),
        (&file[..], 200, SUMMARY_BYTES + 1, 20),
        (&file[..], 3, SUMMARY_BYTES, 18),
        (&file[..file.len() - 1], 200, SUMMARY_BYTES, 3),
        (&[], 200, SUMMARY_BYTES, 1),
    ] {
        let (mut table, mut summary) = (table(entries), vec![LENT; bytes]);
        assert_eq!(raw::open(file, &mut table, &mut summary), number);
        assert!(is_zero(&table) && is_zero(&summary));
    }
}

#[test]
fn a_summary_that_is_not_of_its_layout_is_refused_by_every_call() {
    let file = roller(2, 3, 2, 4, 4);
    let good = opened(&file);
    let mut axis = good.clone();
    axis[0] = 3;
    let mut tail = good.clone();
    tail[SUMMARY_BYTES - 1] = 1;
    for summary in [&good[1..], &axis, &tail, &[]] {
        let mut samples = vec![LENT; 32];
        assert_eq!(raw::plane(&file, summary, [0; 4], &mut samples), 20);
        assert_eq!(raw::sheet(&file, summary, [0; 4], &mut samples), 20);
        assert!(is_lent(&samples));
        let mut buffer = vec![LENT; 6 * FRAME_BYTES];
        assert_eq!(raw::register(&file, summary, &mut buffer), 20);
        assert!(is_lent(&buffer));
        let mut table = table(9);
        assert_eq!(raw::tree(&file, summary, b"x!", &mut table), 20);
        assert!(is_zero(&table));
        let mut row = vec![LENT; 2 * CHANNEL_BYTES];
        table.fill(LENT);
        assert_eq!(raw::channels(&file, summary, &mut table, &mut row), 20);
        assert!(is_zero(&table) && is_zero(&row));
        let mut picometres = u64::MAX;
        table.fill(LENT);
        let number = raw::picometres(&file, summary, &mut table, &mut picometres);
        assert!((number, picometres) == (20, 0) && is_zero(&table));
    }
}

#[test]
fn loops_that_are_not_used_may_hold_anything() {
    let file = roller(2, 3, 2, 4, 4);
    let good = opened(&file);
    let mut odd = good.clone();
    odd[32..48].fill(LENT);
    let (mut samples, mut others) = (vec![LENT; 32], vec![LENT; 32]);
    assert_eq!(raw::plane(&file, &good, [1, 0, 1, 2], &mut samples), 0);
    assert_eq!(raw::plane(&file, &odd, [1, 0, 1, 2], &mut others), 0);
    assert_eq!(samples, others);
    let mut buffer = vec![LENT; 6 * FRAME_BYTES];
    assert_eq!(raw::register(&file, &odd, &mut buffer), 0);
    odd[48] = 3;
    assert_eq!(raw::register(&file, &odd, &mut buffer), 20);
}

#[test]
fn later_bytes_are_left_alone_or_cleared() {
    let file = roller(2, 3, 2, 4, 4);
    let summary = opened(&file);
    let mut samples = vec![LENT; 40];
    assert_eq!(raw::plane(&file, &summary, [1, 0, 1, 2], &mut samples), 0);
    assert!(is_lent(&samples[32..]));
    let mut buffer = vec![LENT; 6 * FRAME_BYTES + 5];
    assert_eq!(raw::register(&file, &summary, &mut buffer), 0);
    assert!(is_lent(&buffer[6 * FRAME_BYTES..]));
    let mut row = vec![LENT; 3 * CHANNEL_BYTES + 5];
    let mut table = table(200);
    assert_eq!(raw::channels(&file, &summary, &mut table, &mut row), 0);
    assert!(is_zero(&row[2 * CHANNEL_BYTES..]) && is_zero(&table));
    assert_eq!(
        raw::channels(&file, &summary, &mut table, &mut row[..CHANNEL_BYTES]),
        19
    );
}

#[test]
fn picometres_take_the_table_and_leave_it_zero() {
    let file = roller(2, 3, 2, 4, 4);
    let summary = opened(&file);
    for (bytes, expected) in [
        (2 * ENTRY_BYTES, (0, 325_000)),
        (2 * ENTRY_BYTES + 7, (0, 325_000)),
        (2 * ENTRY_BYTES - 1, (18, 0)),
        (0, (18, 0)),
    ] {
        let (mut table, mut picometres) = (vec![LENT; bytes], u64::MAX);
        let number = raw::picometres(&file, &summary, &mut table, &mut picometres);
        assert_eq!((number, picometres), expected, "{bytes}");
        assert!(is_zero(&table));
    }
}

#[test]
fn a_sheet_is_its_head_and_the_samples() {
    let file = roller(2, 3, 2, 4, 4);
    let summary = opened(&file);
    let at = [1, 0, 1, 2];
    let mut samples = vec![LENT; 32];
    assert_eq!(raw::plane(&file, &summary, at, &mut samples), 0);
    let bytes = SHEET_HEAD_BYTES + 32;
    let mut sheet = vec![LENT; bytes + 5];
    let number = raw::sheet(&file, &summary, at, &mut sheet[..bytes - 1]);
    assert!(number == 25 && is_lent(&sheet));
    assert_eq!(raw::sheet(&file, &summary, at, &mut sheet), 0);
    assert_eq!(sheet[SHEET_HEAD_BYTES..bytes], samples);
    assert!(is_lent(&sheet[bytes..]));
    sheet.truncate(bytes);
    read_back(&sheet, &samples);
}

/// Reads a sheet of 4 x 4 samples of 16 bits with samples that are long, short, and for what is no sheet.
fn read_back(sheet: &[u8], samples: &[u8]) {
    let mut lent = vec![LENT; samples.len() + 5];
    let mut sizes = [u64::MAX; 3];
    assert_eq!(raw::read_sheet(sheet, &mut lent, &mut sizes), 0);
    assert_eq!((&lent[..samples.len()], sizes), (samples, [4, 4, 16]));
    assert!(is_lent(&lent[samples.len()..]));
    for (sheet, room, number) in [
        (sheet, samples.len() - 1, 25),
        (sheet, 0, 25),
        (&sheet[1..], samples.len(), 27),
        (&sheet[..sheet.len() - 1], 0, 27),
        (&[], samples.len(), 27),
    ] {
        let (mut lent, mut sizes) = (vec![LENT; room], [u64::MAX; 3]);
        assert_eq!(raw::read_sheet(sheet, &mut lent, &mut sizes), number);
        assert!(is_lent(&lent) && sizes == [0; 3]);
    }
}

#[test]
fn opening_and_reading_in_one_call() {
    let file = roller(2, 3, 2, 4, 4);
    let summary = opened(&file);
    let (mut one, mut other) = (vec![LENT; 32], vec![0; 32]);
    let mut table = table(200);
    assert_eq!(
        raw::read_plane(&file, &mut table, [1, 0, 1, 2], &mut one),
        0
    );
    assert_eq!(raw::plane(&file, &summary, [1, 0, 1, 2], &mut other), 0);
    assert!(one == other && is_zero(&table));
    one.fill(LENT);
    assert_eq!(
        raw::read_plane(&file, &mut table, [2, 0, 1, 2], &mut one),
        21
    );
    assert_eq!(
        raw::read_plane(&file[1..], &mut table, [1, 0, 1, 2], &mut one),
        1
    );
    assert!(is_lent(&one));
}

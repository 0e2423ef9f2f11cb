//! Sheets: every byte of small ones, what is taken for one, and the order of the refusals.

mod common;

use common::*;
use sample::parts::{self, Sizes};
use second::refusal::*;
use second::{read_sheet, Sheet};

const HEAD: usize = 186;

/// The sheet of 2 x 1 samples of 16 bits, byte by byte.
const OF_16_BITS: [u8; HEAD] = [
    b'I', b'I', 42, 0, 8, 0, 0, 0, 13, 0, //
    0, 1, 4, 0, 1, 0, 0, 0, 2, 0, 0, 0, // 256, LONG: width
    1, 1, 4, 0, 1, 0, 0, 0, 1, 0, 0, 0, // 257, LONG: height
    2, 1, 3, 0, 1, 0, 0, 0, 16, 0, 0, 0, // 258, SHORT: bits
    3, 1, 3, 0, 1, 0, 0, 0, 1, 0, 0, 0, // 259, SHORT: uncompressed
    6, 1, 3, 0, 1, 0, 0, 0, 1, 0, 0, 0, // 262, SHORT: black is zero
    17, 1, 4, 0, 1, 0, 0, 0, 186, 0, 0, 0, // 273, LONG: where the strip is
    21, 1, 3, 0, 1, 0, 0, 0, 1, 0, 0, 0, // 277, SHORT: one component
    22, 1, 4, 0, 1, 0, 0, 0, 1, 0, 0, 0, // 278, LONG: rows of the strip
    23, 1, 4, 0, 1, 0, 0, 0, 4, 0, 0, 0, // 279, LONG: bytes of the strip
    26, 1, 5, 0, 1, 0, 0, 0, 170, 0, 0, 0, // 282, RATIONAL
    27, 1, 5, 0, 1, 0, 0, 0, 178, 0, 0, 0, // 283, RATIONAL
    40, 1, 3, 0, 1, 0, 0, 0, 1, 0, 0, 0, // 296, SHORT: no unit
    83, 1, 3, 0, 1, 0, 0, 0, 1, 0, 0, 0, // 339, SHORT: whole numbers
    0, 0, 0, 0, // no further directory
    1, 0, 0, 0, 1, 0, 0, 0, 1, 0, 0, 0, 1, 0, 0, 0,
];

/// Where some values stand.
const WIDTH: usize = 18;
const HEIGHT: usize = 30;
const BITS: usize = 42;
const ROWS: usize = 102;
const BYTES: usize = 114;
const FORMAT: usize = 162;

/// The sheet with other bytes at some places, which has these samples.
fn sheet_but(changes: &[(usize, u8)], samples: &[u8]) -> Vec<u8> {
    let mut sheet = OF_16_BITS.to_vec();
    changes.iter().for_each(|&(at, byte)| sheet[at] = byte);
    sheet.extend_from_slice(samples);
    sheet
}

fn of_bits(bits: u64) -> Vec<u8> {
    match bits {
        8 => sheet_but(&[(BITS, 8), (BYTES, 2)], &[1, 2]),
        16 => sheet_but(&[], &[1, 2, 3, 4]),
        _ => sheet_but(
            &[(BITS, 32), (BYTES, 8), (FORMAT, 3)],
            &[1, 2, 3, 4, 5, 6, 7, 8],
        ),
    }
}

/// A file of one frame that has these rows.
fn file_of(sizes: Sizes, rows: &[u8]) -> Vec<u8> {
    let mut file = of_trees(&[
        (parts::ATTRIBUTES, parts::attributes(sizes)),
        (parts::EXPERIMENT, parts::experiment(&[])),
    ]);
    file.add("ImageDataSeq|0!", &parts::frame(rows));
    file.finish()
}

/// The sheet of component c of the first frame.
fn sheet(file: &[u8], c: u64) -> Vec<u8> {
    let summary = opened(file);
    let bytes = HEAD + summary.attributes().plane_bytes().expect("a plane") as usize;
    let mut lent = vec![0xA5; bytes + 3];
    assert_eq!(second::sheet(file, &summary, 0, 0, c, 0, &mut lent), 0);
    assert_eq!(lent.split_off(bytes), [0xA5; 3], "later bytes were touched");
    lent
}

/// What reading gives: what the sheet says, and the samples.
fn read(sheet: &[u8]) -> Result<(Sheet, Vec<u8>), u32> {
    let room = sheet.len().saturating_sub(HEAD);
    let mut lent = vec![0xA5; room + 3];
    let answer = read_sheet(sheet, &mut lent);
    let touched = if answer.is_ok() { room } else { 0 };
    assert!(lent[touched..].iter().all(|&byte| byte == 0xA5));
    lent.truncate(room);
    answer.map(|sizes| (sizes, lent))
}

fn sizes(width: u64, height: u64, bits: u64) -> Sheet {
    Sheet {
        width,
        height,
        bits,
    }
}

#[test]
fn every_byte_of_a_sheet() {
    for bits in [8, 16, 32] {
        let expected = of_bits(bits);
        let file = file_of(Sizes::packed(2, 1, 1, bits), &expected[HEAD..]);
        assert_eq!(sheet(&file, 0), expected);
        let samples = expected[HEAD..].to_vec();
        assert_eq!(read(&expected), Ok((sizes(2, 1, bits), samples)));
    }
}

/// One other byte before the strip makes it no sheet: each size is told more than once. In the strip any byte will do.
#[test]
fn every_byte_changed() {
    for bits in [8, 16, 32] {
        let good = of_bits(bits);
        for at in 0..good.len() {
            for change in 1..=255 {
                let mut changed = good.clone();
                changed[at] ^= change;
                let expected = match at < HEAD {
                    true => Err(SHEET_LAYOUT),
                    false => Ok((sizes(2, 1, bits), changed[HEAD..].to_vec())),
                };
                assert_eq!(read(&changed), expected, "byte {at} of {bits} bits");
            }
        }
    }
}

/// Changes that go together make another sheet of as many bytes.
#[test]
fn changes_that_make_another_sheet() {
    let samples = vec![1, 2, 3, 4];
    let of = |changes: &[(usize, u8)]| read(&sheet_but(changes, &samples));
    let told = |sizes| Ok((sizes, samples.clone()));
    let turned = of(&[(WIDTH, 1), (HEIGHT, 2), (ROWS, 2)]);
    assert_eq!(turned, told(sizes(1, 2, 16)));
    assert_eq!(of(&[(WIDTH, 4), (BITS, 8)]), told(sizes(4, 1, 8)));
    let wide = of(&[(WIDTH, 1), (BITS, 32), (FORMAT, 3)]);
    assert_eq!(wide, told(sizes(1, 1, 32)));
    for half in [
        &[(WIDTH, 1), (HEIGHT, 2)][..],
        &[(WIDTH, 1), (ROWS, 2)],
        &[(WIDTH, 1), (BITS, 32)],
        &[(WIDTH, 4), (BITS, 8), (FORMAT, 3)],
    ] {
        assert_eq!(of(half), Err(SHEET_LAYOUT));
    }
}

#[test]
fn lengths_that_are_no_sheets() {
    let good = of_bits(16);
    for len in 0..good.len() {
        assert_eq!(read(&good[..len]), Err(SHEET_LAYOUT), "{len} bytes");
    }
    let mut longer = good.clone();
    longer.push(0);
    assert_eq!(read(&longer), Err(SHEET_LAYOUT));
    longer[BYTES] += 1;
    assert_eq!(read(&longer), Err(SHEET_LAYOUT));
    assert_eq!(
        read(&sheet_but(&[(BYTES, 3)], &[1, 2, 3])),
        Err(SHEET_LAYOUT)
    );
}

#[test]
fn sizes_of_zero() {
    let none = |changes: &[(usize, u8)]| read(&sheet_but(changes, &[]));
    assert_eq!(none(&[(WIDTH, 0), (BYTES, 0)]), Err(SHEET_LAYOUT));
    let flat = [(HEIGHT, 0), (ROWS, 0), (BYTES, 0)];
    assert_eq!(none(&flat), Err(SHEET_LAYOUT));
    let both = [(WIDTH, 0), (HEIGHT, 0), (ROWS, 0), (BYTES, 0)];
    assert_eq!(none(&both), Err(SHEET_LAYOUT));
    assert_eq!(none(&[(BITS, 0), (BYTES, 0)]), Err(SHEET_LAYOUT));
}

/// Width times height times sample bytes passes 2^64, and is then what the strip has.
#[test]
fn sizes_whose_product_wraps() {
    let large = [(WIDTH + 3, 128), (HEIGHT + 3, 128), (ROWS + 3, 128)];
    let mut changes = vec![(WIDTH, 0), (HEIGHT, 0), (ROWS, 0)];
    changes.extend(large);
    changes.extend([(BITS, 32), (FORMAT, 3), (BYTES, 0)]);
    assert_eq!(read(&sheet_but(&changes, &[])), Err(SHEET_LAYOUT));
}

/// The strip has the plane's samples, whatever stands between and behind them in the frame.
#[test]
fn strips_are_planes() {
    for (components, padding, bits) in [(1, 3, 8), (2, 0, 16), (3, 5, 16), (3, 1, 32)] {
        let mut shape = Sizes::packed(3, 2, components, bits);
        shape.stride += padding;
        let rows: Vec<u8> = (0..(shape.stride * shape.height) as u8).collect();
        let file = file_of(shape, &rows);
        for c in 0..components {
            let samples = plane(&file, [0, 0, c, 0]).expect("a plane");
            let told = read(&sheet(&file, c));
            assert_eq!(told, Ok((sizes(3, 2, bits), samples)));
        }
    }
}

#[test]
fn short_buffers() {
    let file = file_of(SIZES, &[1, 2, 3, 4]);
    let summary = opened(&file);
    let mut lent = [9; HEAD + 3];
    let number = second::sheet(&file, &summary, 0, 0, 0, 0, &mut lent);
    assert_eq!((number, lent), (BUFFER, [9; HEAD + 3]));
    let mut lent = [9; 3];
    assert_eq!(read_sheet(&of_bits(16), &mut lent), Err(BUFFER));
    assert_eq!(read_sheet(&of_bits(16)[1..], &mut lent), Err(SHEET_LAYOUT));
    assert_eq!(lent, [9; 3]);
}

//! TIFF sheets: written, read back, and held against the second implementation.

use nd2::raw::{self, SHEET_HEAD_BYTES, SUMMARY_BYTES};
use nd2::{File, Reader, Refusal, Sheet};
use sample::parts::{self, Sizes};
use sample::{corner, Nd2, Roller};
use std::fs;
use std::io::Write;
use std::path::PathBuf;

/// What lent bytes hold before a call.
const LENT: u8 = 0xEE;

/// A file of one frame that has these rows.
fn with_rows(sizes: Sizes, rows: &[u8]) -> Vec<u8> {
    let mut file = Nd2::new();
    file.add(parts::ATTRIBUTES, &parts::attributes(sizes).encode());
    file.add(parts::EXPERIMENT, &parts::experiment(&[]).encode());
    file.add(&parts::frame_name(0), &parts::frame(rows));
    file.finish()
}

/// A file of one frame whose bytes count up.
fn one_frame(sizes: Sizes) -> Vec<u8> {
    let rows: Vec<u8> = (0..sizes.stride * sizes.height).map(|i| i as u8).collect();
    with_rows(sizes, &rows)
}

/// Frames of 1 to 3 components with 8, 16 and 32 bits, with and without padding.
fn shapes() -> Vec<Sizes> {
    let mut all = Vec::new();
    for bits in [8, 16, 32] {
        for (components, padding) in [(1, 0), (1, 3), (2, 0), (3, 7)] {
            let mut sizes = Sizes::packed(5, 4, components, bits);
            sizes.stride += padding;
            all.push(sizes);
        }
    }
    all
}

#[test]
fn a_sheet_is_a_head_and_the_plane() {
    for sizes in shapes() {
        let bytes = one_frame(sizes);
        let reader = Reader::open(&bytes).unwrap();
        let mut heads = Vec::new();
        for c in 0..sizes.components {
            let plane = reader.plane(0, 0, c, 0).unwrap();
            let sheet = reader.sheet(0, 0, c, 0).unwrap();
            assert_eq!(sheet.len() as u64, reader.summary().sheet_bytes());
            assert_eq!(sheet[SHEET_HEAD_BYTES..], plane, "{sizes:?}");
            let read = Sheet::read(&sheet).unwrap();
            let told = (read.width, read.height, read.bits);
            assert_eq!(told, (sizes.width, sizes.height, sizes.bits));
            assert_eq!(read.samples, plane);
            heads.push(sheet[..SHEET_HEAD_BYTES].to_vec());
        }
        assert!(heads.windows(2).all(|two| two[0] == two[1]));
    }
}

#[test]
fn the_second_implementation_writes_the_same_sheet() {
    for sizes in shapes() {
        let bytes = one_frame(sizes);
        let reader = Reader::open(&bytes).unwrap();
        let summary = second::open(&bytes, &mut [0; 48 * 16]).unwrap();
        for c in 0..sizes.components {
            let sheet = reader.sheet(0, 0, c, 0).unwrap();
            let mut other = vec![LENT; sheet.len()];
            assert_eq!(second::sheet(&bytes, &summary, 0, 0, c, 0, &mut other), 0);
            assert!(sheet == other, "{sizes:?}");
        }
    }
}

/// What the proved reader and the second implementation make of bytes as a sheet; they have to make the same of them.
fn read(sheet: &[u8], room: usize) -> (u32, [u64; 3], Vec<u8>) {
    let (mut samples, mut sizes) = (vec![LENT; room], [u64::MAX; 3]);
    let number = raw::read_sheet(sheet, &mut samples, &mut sizes);
    let mut other = vec![LENT; room];
    let told = second::read_sheet(sheet, &mut other);
    assert_eq!(number, told.err().unwrap_or(0));
    let told = told.unwrap_or_default();
    assert_eq!(sizes, [told.width, told.height, told.bits]);
    assert!(samples == other, "other samples");
    (number, sizes, samples)
}

/// Each byte of small sheets changed to each other value: in the head it is no sheet any more, among the samples it is
/// another one.
#[test]
fn every_byte_changed() {
    for bits in [8, 16, 32] {
        let bytes = one_frame(Sizes::packed(3, 2, 1, bits));
        let good = Reader::open(&bytes).unwrap().sheet(0, 0, 0, 0).unwrap();
        let room = good.len() - SHEET_HEAD_BYTES;
        for at in 0..good.len() {
            for change in 1..=255 {
                let mut changed = good.clone();
                changed[at] ^= change;
                let (number, sizes, samples) = read(&changed, room);
                match at < SHEET_HEAD_BYTES {
                    true => assert_eq!((number, sizes), (27, [0; 3])),
                    false => assert_eq!((number, sizes), (0, [3, 2, bits])),
                }
                let expected = match number {
                    0 => changed[SHEET_HEAD_BYTES..].to_vec(),
                    _ => vec![LENT; room],
                };
                assert_eq!(samples, expected);
            }
        }
    }
}

/// Longer and shorter than it says, and sizes that are told together.
#[test]
fn other_lengths_and_other_sizes() {
    let bytes = one_frame(Sizes::packed(3, 2, 1, 16));
    let good = Reader::open(&bytes).unwrap().sheet(0, 0, 0, 0).unwrap();
    for len in 0..good.len() {
        assert_eq!(read(&good[..len], 12).0, 27);
    }
    let mut longer = good.clone();
    longer.push(0);
    assert_eq!(read(&longer, 13).0, 27);
    let with = |changes: &[(usize, u8)], samples: usize| {
        let mut sheet = good.clone();
        changes.iter().for_each(|&(at, byte)| sheet[at] = byte);
        sheet.resize(SHEET_HEAD_BYTES + samples, 7);
        read(&sheet, 40)
    };
    let (width, height, bits, rows, count, format) = (18, 30, 42, 102, 114, 162);
    let turned = with(&[(width, 2), (height, 3), (rows, 3)], 12);
    assert_eq!((turned.0, turned.1), (0, [2, 3, 16]));
    let wide = with(&[(bits, 32), (format, 3), (count, 24)], 24);
    assert_eq!((wide.0, wide.1), (0, [3, 2, 32]));
    assert_eq!(with(&[(bits, 32), (count, 24)], 24).0, 27);
    assert_eq!(with(&[(width, 0), (count, 0)], 0).0, 27);
    assert_eq!(with(&[(height, 0), (rows, 0), (count, 0)], 0).0, 27);
    assert_eq!(with(&[(bits, 0), (count, 0)], 0).0, 27);
    assert_eq!(with(&[(bits, 24), (count, 18)], 18).0, 27);
    // 2^31 x 2^31 samples of 32 bits are 2^64 bytes
    let mut wraps = vec![(bits, 32), (format, 3), (count, 0)];
    wraps.extend([width, height, rows].map(|at| (at, 0)));
    wraps.extend([width, height, rows].map(|at| (at + 3, 128)));
    assert_eq!(with(&wraps, 0).0, 27);
}

#[test]
fn refusals_are_those_of_the_plane() {
    let r = Roller::new(3, 2, 2, 5, 4);
    let mut bytes = r.file();
    let gone = b"ImageDataSeq|3!";
    let map = bytes.windows(gone.len()).rposition(|part| part == gone);
    bytes[map.unwrap()] = b'X';
    let reader = Reader::open(&bytes).unwrap();
    for (scene, t, c, z) in [(3, 0, 0, 0), (0, 1, 0, 0), (0, 0, 2, 0), (0, 0, 0, 2)] {
        assert_eq!(reader.sheet(scene, t, c, z), Err(Refusal::INDEX));
    }
    assert_eq!(reader.sheet(1, 0, 0, 1), Err(Refusal::NO_FRAME));
    let mut buffer = [7; SHEET_HEAD_BYTES + 50];
    reader.sheet_into(2, 0, 1, 1, &mut buffer).unwrap();
    assert_eq!(buffer[SHEET_HEAD_BYTES + 40..], [7; 10]);
    let mut buffer = [7; SHEET_HEAD_BYTES + 39];
    let refused = reader.sheet_into(2, 0, 1, 1, &mut buffer);
    assert_eq!(refused, Err(Refusal::BUFFER));
    assert_eq!(buffer, [7; SHEET_HEAD_BYTES + 39]);
}

/// A file that is removed when the test ends.
struct Scratch(PathBuf);

impl Drop for Scratch {
    fn drop(&mut self) {
        let _ = fs::remove_file(&self.0);
    }
}

fn scratch(name: &str) -> Scratch {
    let name = format!("nd2-{}-{name}", std::process::id());
    Scratch(std::env::temp_dir().join(name))
}

/// A file of one row of so many samples of 8 bits, all of them a hole.
fn hollow(width: u64) -> Scratch {
    let scratch = scratch(&format!("hollow-{width}"));
    let mut out = fs::File::create(&scratch.0).unwrap();
    corner::hollow(Sizes::packed(width, 1, 1, 8), &mut out).unwrap();
    scratch
}

/// Maps a file that is larger than what a test should read.
fn mapped(scratch: &Scratch) -> File {
    // SAFETY: nobody but this test knows the file, which is not written any more.
    unsafe { File::map_path(&scratch.0) }.unwrap()
}

/// What the proved reader and the second implementation say to a sheet of such a file, in a buffer of so many bytes.
fn asked(file: &[u8], room: usize) -> u32 {
    let (mut table, mut laid) = ([0; 48 * 16], [0; SUMMARY_BYTES]);
    assert_eq!(raw::open(file, &mut table, &mut laid), 0);
    let mut lent = vec![LENT; room];
    let number = raw::sheet(file, &laid, [0; 4], &mut lent);
    let summary = second::open(file, &mut table).unwrap();
    let second = second::sheet(file, &summary, 0, 0, 0, 0, &mut lent);
    assert_eq!(number, second);
    assert!(lent.iter().all(|&byte| byte == LENT));
    number
}

/// A sheet may have 4,294,967,295 bytes and not one more: 26 comes after what is wrong with the frame, and before the
/// buffer is looked at.
#[test]
fn a_sheet_that_would_be_too_long() {
    let most = u32::MAX as u64 - SHEET_HEAD_BYTES as u64;
    let fits = hollow(most);
    let file = mapped(&fits);
    assert_eq!([0, 1000].map(|room| asked(&file, room)), [25, 25]);
    let long = hollow(most + 1);
    let file = mapped(&long);
    assert_eq!([0, 1000].map(|room| asked(&file, room)), [26, 26]);
    let reader = file.reader().unwrap();
    assert_eq!(reader.sheet(0, 0, 0, 0), Err(Refusal::SHEET_LONG));
    assert_eq!(reader.sheet(1, 0, 0, 0), Err(Refusal::INDEX));
    let short = with_rows(Sizes::packed(most + 1, 1, 1, 8), &[0; 100]);
    assert_eq!(asked(&short, 0), 24);
}

/// A sheet of one row of so many samples of 8 bits, all of them a hole.
fn hollow_sheet(width: u32) -> Scratch {
    let bytes = one_frame(Sizes::packed(1, 1, 1, 8));
    let mut head = Reader::open(&bytes).unwrap().sheet(0, 0, 0, 0).unwrap();
    head.truncate(SHEET_HEAD_BYTES);
    for at in [18, 114] {
        head[at..at + 4].copy_from_slice(&width.to_le_bytes());
    }
    let scratch = scratch(&format!("sheet-{width}"));
    let mut out = fs::File::create(&scratch.0).unwrap();
    out.write_all(&head).unwrap();
    out.set_len(head.len() as u64 + width as u64).unwrap();
    scratch
}

/// The same limit where a sheet is read: one of as many bytes is taken and needs room, one of a byte more is none.
#[test]
fn a_sheet_that_is_too_long() {
    let most = u32::MAX - SHEET_HEAD_BYTES as u32;
    for (width, number) in [(most, 25), (most + 1, 27), (u32::MAX, 27)] {
        let sheet = hollow_sheet(width);
        let file = mapped(&sheet);
        assert_eq!(read(&file, 1000).0, number, "{width} samples");
    }
}

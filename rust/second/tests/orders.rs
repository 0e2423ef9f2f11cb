//! Where several refusals hold, the first of the call's order is the answer.

mod common;

use common::*;
use sample::parts::{self, Plane, Sizes, TIME};
use sample::tree::{raw, u32, u64};
use second::refusal::*;
use second::{Axis, Channel, Loop, Summary};

/// A file with one frame, and its summary.
fn one_frame() -> (Vec<u8>, Summary) {
    let mut file = of_trees(&[
        (parts::ATTRIBUTES, parts::attributes(SIZES)),
        (parts::EXPERIMENT, parts::experiment(&[])),
        (parts::CHANNELS, parts::channels(&[Plane::new("lamp", 1)])),
    ]);
    file.add("ImageDataSeq|0!", &parts::frame(&[1, 2, 3, 4]));
    let file = file.finish();
    let summary = opened(&file);
    (file, summary)
}

/// Each step heals the first refusal of those that hold. A plane and a sheet have the same ones; 26 of a sheet, between 24
/// and 25, needs a file of 4 GB.
fn frame_orders(good: Summary, asked: impl Fn(&Summary, u64) -> u32) {
    let mut summary = good;
    summary.map.len = 0;
    summary.width = 1 << 32;
    summary.stride = 1;
    assert_eq!(asked(&summary, 1), SUMMARY);
    summary.stride = 1 << 32;
    assert_eq!(asked(&summary, 1), INDEX);
    assert_eq!(asked(&summary, 0), CEILING);
    summary.height = 1;
    assert_eq!(asked(&summary, 0), MAP);
    summary.map = good.map;
    summary.depth = 1;
    summary.loops[0] = Loop {
        axis: Axis::P,
        count: 2,
    };
    assert_eq!(asked(&summary, 1), NO_FRAME);
    assert_eq!(asked(&summary, 0), FRAME_SHORT);
    summary.width = 2;
    summary.stride = 4;
    assert_eq!(asked(&summary, 0), BUFFER);
}

#[test]
fn plane() {
    let (file, good) = one_frame();
    frame_orders(good, |summary, index| {
        second::plane(&file, summary, index, 0, 0, 0, &mut [])
    });
}

#[test]
fn sheet() {
    let (file, good) = one_frame();
    frame_orders(good, |summary, index| {
        second::sheet(&file, summary, index, 0, 0, 0, &mut [])
    });
}

/// The ceiling's plane is exactly 4,294,967,296 bytes; the rows of a frame may pass 2^64 − 1.
#[test]
fn products() {
    let (file, good) = one_frame();
    let mut summary = good;
    summary.width = 1;
    summary.height = 4;
    summary.stride = 1 << 62;
    let number = second::plane(&file, &summary, 0, 0, 0, 0, &mut [0; 9]);
    assert_eq!(number, FRAME_SHORT);
    summary.stride = u64::MAX;
    let number = second::plane(&file, &summary, 0, 0, 0, 0, &mut [0; 9]);
    assert_eq!(number, FRAME_SHORT);
    summary.depth = 3;
    summary.loops = [Axis::T, Axis::Z, Axis::P].map(|axis| Loop {
        axis,
        count: 1_000_000,
    });
    assert_eq!(second::register(&file, &summary, &mut [0; 240]), BUFFER);
}

#[test]
fn channels() {
    let (file, good) = one_frame();
    let asked = |summary: &Summary, row: usize| {
        let mut row = vec![Channel::default(); row];
        second::channels(&file, summary, &mut [], &mut row)
    };
    let mut empty = good;
    empty.map.len = 0;
    let mut broken = empty;
    broken.bits = 9;
    assert_eq!(asked(&broken, 0), SUMMARY);
    assert_eq!(asked(&empty, 0), MAP);
    assert_eq!(asked(&good, 0), CHANNEL_ROW);
    assert_eq!(asked(&good, 1), TABLE);
}

#[test]
fn tree_and_register() {
    let (file, good) = one_frame();
    let mut empty = good;
    empty.map.len = 0;
    let tree = |summary: &Summary, name: &[u8]| second::tree(&file, summary, name, &mut []);
    assert_eq!(tree(&empty, b"Nothing!"), MAP);
    assert_eq!(tree(&good, b"Nothing!"), MISSING);
    assert_eq!(tree(&good, b"ImageMetadataLV!"), TABLE);
    assert_eq!(second::register(&file, &empty, &mut []), MAP);
    assert_eq!(second::register(&file, &good, &mut []), BUFFER);
}

/// Faults of the attributes come before those of the experiment, and the bytes of a plane (14) after both.
#[test]
fn open_in_order() {
    let large = Sizes {
        width: 1 << 33,
        stride: u64::MAX,
        height: 1 << 33,
        components: 1,
        bits: 8,
    };
    let bad_loop = looped("SLxExperiment", 3, parts::counted(1), Vec::new());
    let attributes = parts::attributes(large);
    assert_eq!(
        open(&with(attributes.clone(), bad_loop.clone())),
        Err(LOOP_KIND)
    );
    let good_loop = looped("SLxExperiment", TIME, parts::counted(1), Vec::new());
    assert_eq!(open(&with(attributes, good_loop)), Err(FRAME_SHAPE));
    let bits = attributes_but(u64("uiBpcInMemory", 9));
    assert_eq!(open(&with(bits, bad_loop.clone())), Err(BITS));
    let compressed = attributes_but(u32("eCompression", 1));
    assert_eq!(open(&with(compressed, raw(12, "", &[]))), Err(COMPRESSION));
}

/// 18 of the calibration comes after 14 for the bytes of a plane.
#[test]
fn table_of_the_calibration() {
    let file = |sizes| {
        let records = (0..20).map(|i| u32(&format!("n{i}"), i)).collect();
        let calibration = sample::tree::level("SLxCalibration", records);
        of_trees(&[
            (parts::ATTRIBUTES, parts::attributes(sizes)),
            (parts::EXPERIMENT, parts::experiment(&[])),
            (parts::CALIBRATION, calibration),
        ])
        .finish()
    };
    let mut large = SIZES;
    large.width = 1 << 40;
    large.height = 1 << 40;
    large.stride = 1 << 40;
    assert_eq!(second::open(&file(SIZES), &mut [0; 48 * 20]), Err(TABLE));
    assert!(second::open(&file(SIZES), &mut [0; 48 * 21]).is_ok());
    assert_eq!(
        second::open(&file(large), &mut [0; 48 * 20]),
        Err(FRAME_SHAPE)
    );
}

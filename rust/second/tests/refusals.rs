//! The smallest files of each refusal number, and what each call leaves in lent bytes.

mod common;

use common::*;
use sample::file::{LEGACY as LEGACY_MARK, MAP_END, MAP_NAME, MARK};
use sample::parts::{self, Plane, Sizes, CUSTOM, FOCUS, POINTS, SPECTRAL, TIME};
use sample::tree::{f64, i32, level, list, packed, raw, u32, u64, Record};
use second::refusal::*;
use second::{Channel, Summary};

#[test]
fn first_bytes() {
    assert_eq!(open(&[]), Err(FOREIGN));
    assert_eq!(open(&MARK.to_le_bytes()[..3]), Err(FOREIGN));
    assert_eq!(open(&[1, 2, 3, 4]), Err(FOREIGN));
    assert_eq!(open(&LEGACY_MARK.to_le_bytes()), Err(LEGACY));
    assert_eq!(open(&MARK.to_le_bytes()), Err(TAIL));
}

#[test]
fn tail_and_map_chunk() {
    let good = with_sizes(SIZES);
    let mut wrong = good.clone();
    let mark = wrong.len() - 40;
    wrong[mark] = b'X';
    assert_eq!(open(&wrong), Err(TAIL));
    let mut away = good.clone();
    let end = away.len();
    away[end - 8..].copy_from_slice(&u64::MAX.to_le_bytes());
    assert_eq!(open(&away), Err(CHUNK));
    assert_eq!(chunk_named(&MAP_NAME[..31]), Err(CHUNK));
    assert_eq!(
        chunk_named(b"ND2 FILEMAP SIGNATURE NAME 0001! and more"),
        Err(MISSING)
    );
}

/// Opens a file of nothing but a map under this name.
fn chunk_named(name: &[u8]) -> Result<Summary, u32> {
    let mut file = sample::Nd2::new();
    file.chunk(b"x!", &[]);
    open(&file.finish_with(name, MAP_END))
}

#[test]
fn map() {
    let map = |data: &[u8]| {
        let mut file = sample::Nd2::new();
        file.chunk(b"x!", &[]);
        open(&file.finish_with(MAP_NAME, data))
    };
    assert_eq!(map(b""), Err(MAP));
    assert_eq!(map(&MAP_END[..31]), Err(MAP));
    assert_eq!(map(b"!0123456789abcde"), Err(MAP));
    let mut after = b"!0123456789abcdef".to_vec();
    after.extend_from_slice(MAP_END);
    after.extend_from_slice(b"after the end");
    assert_eq!(map(&after), Err(MISSING));
}

#[test]
fn map_limit() {
    let entries = |count: usize| {
        let mut data = b"!0123456789abcdef".repeat(count);
        data.extend_from_slice(MAP_END);
        let mut file = sample::Nd2::new();
        file.chunk(b"x!", &[]);
        second::open(&file.finish_with(MAP_NAME, &data), &mut [])
    };
    assert_eq!(entries(2_000_000), Err(MISSING));
    assert_eq!(entries(2_000_001), Err(MAP));
}

#[test]
fn trees() {
    let tree = |record: Record| open(&with_experiment(record));
    assert_eq!(tree(raw(0, "x", &[])), Err(KIND));
    assert_eq!(tree(raw(12, "x", &[])), Err(KIND));
    assert_eq!(tree(packed(&[0; 20])), Err(PACKED));
    assert_eq!(tree(raw(5, "x", &[0; 7])), Err(CUT));
    assert_eq!(tree(raw(9, "x", &u64::MAX.to_le_bytes())), Err(CUT));
    assert_eq!(
        tree(level("SLxExperiment", Vec::new())).map(|s| s.depth),
        Ok(0)
    );
    assert_eq!(tree(list("SLxExperiment", vec![u32("", 1)])), Err(MISSING));
    assert_eq!(tree(u32("SLxExperiment", 1)), Err(MISSING));
}

#[test]
fn attributes() {
    let stated = |record: Record| open(&with(attributes_but(record), parts::experiment(&[])));
    assert_eq!(stated(f64("uiWidth", -0.5)), Err(MISSING));
    assert_eq!(stated(f64("uiWidth", -0.0)), Err(FRAME_SHAPE));
    assert_eq!(stated(f64("uiWidth", f64::NAN)), Err(MISSING));
    assert_eq!(stated(u64("uiBpcInMemory", 1 << 32)), Err(MISSING));
    assert_eq!(stated(u64("uiBpcInMemory", (1 << 32) - 1)), Err(BITS));
    assert_eq!(stated(u64("eCompression", 1 << 63)), Err(COMPRESSION));
    assert_eq!(stated(i32("eCompression", -2)), Err(COMPRESSION));
    assert_eq!(stated(u32("uiComp", 1025)), Err(FRAME_SHAPE));
    assert_eq!(stated(f64("uiHeight", f64::INFINITY)), Err(MISSING));
    let large = |width, height| {
        let mut sizes = Sizes::packed(width, height, 1, 8);
        sizes.stride = u64::MAX;
        open(&with_sizes(sizes))
    };
    assert!(large(u64::MAX, 1).is_ok());
    assert_eq!(large(u64::MAX, 2), Err(FRAME_SHAPE));
}

#[test]
fn loops() {
    let walked = |record: Record| open(&with_experiment(record)).map(|s| s.depth);
    let one = |kind, count| looped("SLxExperiment", kind, parts::counted(count), Vec::new());
    assert_eq!(walked(one(TIME, 1_000_000)), Ok(1));
    assert_eq!(walked(one(TIME, 1_000_001)), Err(LOOP_COUNT));
    assert_eq!(walked(one(SPECTRAL, 1_000_001)), Err(LOOP_COUNT));
    assert_eq!(walked(one(SPECTRAL, 5)), Ok(0));
    assert_eq!(walked(one(CUSTOM, 5)), Err(LOOP_KIND));
    assert_eq!(walked(one(CUSTOM, 0)), Ok(0));
    assert_eq!(walked(one(3, 0)), Err(LOOP_KIND));
    assert_eq!(walked(one(11, 1)), Ok(0));
    let twice = looped(
        "SLxExperiment",
        TIME,
        parts::counted(2),
        vec![looped(
            "a",
            parts::OTHER_TIME,
            parts::counted(2),
            Vec::new(),
        )],
    );
    assert_eq!(walked(twice), Err(AXIS_TWICE));
}

/// Two loops at one nesting: of one type the larger count, otherwise the first.
#[test]
fn loops_side_by_side() {
    let below = |first: (u32, u32), then: (u32, u32)| {
        let inner = vec![
            looped("a", first.0, parts::counted(first.1), Vec::new()),
            looped("b", then.0, parts::counted(then.1), Vec::new()),
        ];
        let outer = looped("SLxExperiment", POINTS, parts::counted(2), inner);
        let summary = opened(&with_experiment(outer));
        (summary.depth, summary.loops[1].count)
    };
    assert_eq!(below((TIME, 3), (TIME, 5)), (2, 5));
    assert_eq!(below((TIME, 5), (TIME, 3)), (2, 5));
    assert_eq!(below((TIME, 3), (FOCUS, 5)), (2, 3));
    assert_eq!(below((TIME, 3), (parts::OTHER_TIME, 5)), (2, 3));
}

#[test]
fn planes_and_lent_bytes() {
    let mut file = of_trees(&[
        (parts::ATTRIBUTES, parts::attributes(SIZES)),
        (
            parts::EXPERIMENT,
            parts::experiment(&[(POINTS, parts::points(4))]),
        ),
    ]);
    file.add("ImageDataSeq|0!", &parts::frame(&[1, 2, 3, 4]));
    file.add("ImageDataSeq|1!", &parts::frame(&[1, 2, 3]));
    file.add("ImageDataSeq|2!", &[0; 7]);
    file.entries[4].offset += 1;
    let file = file.finish();
    assert_eq!(plane(&file, [0; 4]), Ok(vec![1, 2, 3, 4]));
    assert_eq!(plane(&file, [1, 0, 0, 0]), Err(FRAME_SHORT));
    assert_eq!(plane(&file, [2, 0, 0, 0]), Err(CHUNK));
    assert_eq!(plane(&file, [3, 0, 0, 0]), Err(NO_FRAME));
    for at in [[4, 0, 0, 0], [0, 1, 0, 0], [0, 0, 1, 0], [0, 0, 0, 1]] {
        assert_eq!(plane(&file, at), Err(INDEX));
    }
    let summary = opened(&file);
    let mut short = [9; 3];
    assert_eq!(
        second::plane(&file, &summary, 0, 0, 0, 0, &mut short),
        BUFFER
    );
    assert_eq!(short, [9; 3]);
    let mut table = vec![1; 48 * file.len()];
    let border = second::read_plane(&file, &mut table, 0, 0, 0, 0, &mut [0; 4]);
    assert_eq!(border, 0);
    assert!(table.iter().all(|&byte| byte == 0));
    register(&file, &summary);
}

fn register(file: &[u8], summary: &Summary) {
    let mut buffer = [9; 24 * 4 + 1];
    assert_eq!(second::register(file, summary, &mut buffer), 0);
    let states: Vec<u8> = buffer.chunks_exact(24).map(|r| r[12]).collect();
    assert_eq!(states, [0, 0, 0, 1]);
    let scenes: Vec<u8> = buffer.chunks_exact(24).map(|r| r[0]).collect();
    assert_eq!(scenes, [0, 1, 2, 3]);
    assert_eq!(buffer[24 * 3 + 16..], [0, 0, 0, 0, 0, 0, 0, 0, 9]);
    let mut short = [9; 24 * 4 - 1];
    assert_eq!(second::register(file, summary, &mut short), BUFFER);
    assert!(short.iter().all(|&byte| byte == 9));
}

#[test]
fn rows_of_channels() {
    let sizes = Sizes::packed(1, 1, 2, 8);
    let file = of_trees(&[
        (parts::ATTRIBUTES, parts::attributes(sizes)),
        (parts::EXPERIMENT, parts::experiment(&[])),
        (parts::CHANNELS, parts::channels(&[Plane::new("lamp", 1)])),
    ]);
    let file = file.finish();
    let summary = opened(&file);
    let filled = Channel {
        named: 9,
        ..Channel::default()
    };
    let mut table = [1; 48 * 8];
    let mut row = [filled; 4];
    assert_eq!(second::channels(&file, &summary, &mut table, &mut row), 0);
    assert_eq!((row[0].named, row[0].units, row[0].red), (1, 4, 1));
    assert_eq!(row[1..], [Channel::default(); 3]);
    let mut row = [filled; 1];
    let short = second::channels(&file, &summary, &mut table, &mut row);
    assert_eq!((short, row[0].named), (CHANNEL_ROW, 0));
    let mut row = [filled; 2];
    let small = second::channels(&file, &summary, &mut [], &mut row);
    assert_eq!((small, row[0].named), (TABLE, 0));
}

#[test]
fn summaries() {
    let file = with_sizes(SIZES);
    let good = opened(&file);
    let refused = |change: fn(&mut Summary)| {
        let mut summary = good;
        change(&mut summary);
        second::register(&file, &summary, &mut [0; 24]) == SUMMARY
    };
    assert!(!refused(|_| {}));
    assert!(!refused(|s| s.calibration = 77));
    assert!(!refused(|s| s.loops[2].count = 0));
    assert!(refused(|s| s.depth = 1));
    assert!(refused(|s| s.depth = 4));
    assert!(refused(|s| s.bits = 24));
    assert!(refused(|s| s.stride = 1));
    assert!(refused(|s| s.map.len += 1 << 20));
    assert!(refused(|s| s.map.start = u64::MAX));
    let mut empty = good;
    empty.map.len = 0;
    assert_eq!(second::register(&file, &empty, &mut [0; 24]), MAP);
}

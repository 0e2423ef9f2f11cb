//! Document 01, Both edges: its single cases, those that are proved too and those that are only run.

mod common;

use common::*;
use sample::parts::{self, Plane, Sizes, FOCUS, POINTS, TIME};
use sample::tree::{f64, level, raw, text, u32, Level, Record, Value};
use second::refusal::*;
use second::values::{self, Value as Read};
use second::{Axis, Channel, Loop};

fn loops(first: (Axis, u64), then: (Axis, u64)) -> second::Summary {
    let one = |(axis, count)| Loop { axis, count };
    second::Summary {
        loops: [one(first), one(then), Loop::default()],
        depth: 2,
        ..second::Summary::default()
    }
}

#[test]
fn seq() {
    assert_eq!(loops((Axis::T, 3), (Axis::P, 4)).frame(2, 1, 0), 6);
    assert_eq!(loops((Axis::P, 4), (Axis::T, 3)).frame(2, 1, 0), 7);
}

#[test]
fn place() {
    let sizes = Sizes {
        width: 2,
        stride: 14,
        height: 2,
        components: 3,
        bits: 16,
    };
    let mut file = of_trees(&[
        (parts::ATTRIBUTES, parts::attributes(sizes)),
        (parts::EXPERIMENT, parts::experiment(&[])),
    ]);
    let data: Vec<u8> = (0..36).collect();
    file.add("ImageDataSeq|0!", &data);
    let samples = plane(&file.finish(), [0, 0, 2, 0]).unwrap();
    // (0, 0), (1, 0), (0, 1), (1, 1): the last one begins at 32.
    assert_eq!(samples, [12, 13, 18, 19, 26, 27, 32, 33]);
    let mut tight = sizes;
    tight.stride = 12;
    assert!(open(&with_sizes(tight)).is_ok());
    tight.stride = 11;
    assert_eq!(open(&with_sizes(tight)), Err(FRAME_SHAPE));
}

/// A file whose first chunk's data begins at byte 100 and is these bytes.
fn at_100(data: &[u8]) -> (Vec<u8>, String) {
    let name = format!("{}!", "a".repeat(83));
    let mut file = sample::Nd2::new();
    file.add(&name, data);
    file.add(parts::ATTRIBUTES, &parts::attributes(SIZES).encode());
    file.add(parts::EXPERIMENT, &parts::experiment(&[]).encode());
    (file.finish(), name)
}

#[test]
fn record_at_100() {
    let record = [3, 2, 0x61, 0, 0, 0, 5, 0, 0, 0];
    let (file, name) = at_100(&record);
    let entries = tree(&file, &name).unwrap();
    assert_eq!(entries.len(), 1);
    let entry = entries[0];
    let numbers = [
        entry.kind,
        entry.name,
        entry.units,
        entry.value,
        entry.size,
        entry.parent,
    ];
    assert_eq!(numbers, [3, 102, 1, 106, 4, 0]);
    let (file, name) = at_100(&record[..9]);
    assert_eq!(tree(&file, &name), Err(CUT));
}

#[test]
fn list_of_one_true() {
    let bytes = |length: u8| {
        let mut bytes = vec![0x0B, 0, 1, 0, 0, 0, length, 0, 0, 0, 0, 0, 0, 0, 1, 0, 1];
        bytes.extend_from_slice(&[0; 8]);
        bytes
    };
    let (file, name) = at_100(&bytes(17));
    let root = values::root(&file, &tree(&file, &name).unwrap());
    assert_eq!(root.slots.len(), 1);
    assert!(root.slots[0].name.is_empty());
    assert_eq!(root.slots[0].value, Read::List(vec![Read::Flag(true)]));
    let (file, name) = at_100(&bytes(13));
    assert_eq!(tree(&file, &name), Err(LEVEL));
}

#[test]
fn colour() {
    let plane = Plane::new("", 0x0033_2211);
    let file = with_more(&[(parts::CHANNELS, parts::channels(&[plane]))]);
    let color = Channel {
        colored: 1,
        red: 0x11,
        green: 0x22,
        blue: 0x33,
        ..Channel::default()
    };
    assert_eq!(channels(&file), [color]);
}

/// The case of eCompression, as it is since change request 4.
#[test]
fn compression() {
    let experiment = parts::experiment(&[]);
    let stated = |value| {
        with(
            attributes_but(f64("eCompression", value)),
            experiment.clone(),
        )
    };
    assert_eq!(open(&stated(2.9)), Err(COMPRESSION));
    assert_eq!(open(&stated(1.9)), Err(COMPRESSION));
    assert!(open(&stated(2.0)).is_ok());
}

/// An eType of 1.5 is no loop, nor are those below it.
#[test]
fn type_with_a_fraction() {
    let of = |kind: f64| {
        let below = looped("b", POINTS, parts::counted(5), Vec::new());
        let records = vec![
            f64("eType", kind),
            level("uLoopPars", parts::counted(2)),
            level("ppNextLevelEx", vec![below]),
        ];
        opened(&with_experiment(level("SLxExperiment", records))).depth
    };
    assert_eq!(of(1.5), 0);
    assert_eq!(of(1.0), 2);
}

/// The summary of a file with these parameters of a focus loop.
fn focus(parameters: Vec<Record>) -> second::Summary {
    let experiment = parts::experiment(&[(FOCUS, parameters)]);
    let file = of_trees(&[
        (parts::ATTRIBUTES, parts::attributes(SIZES)),
        (parts::EXPERIMENT, experiment),
        (parts::CALIBRATION, parts::calibration(0.5)),
    ]);
    opened(&file.finish())
}

#[test]
fn z_from_the_ends() {
    let ends = |count| {
        vec![
            f64("dZHigh", 10.0),
            f64("dZLow", -10.0),
            u32("uiCount", count),
        ]
    };
    let summary = focus(ends(11));
    assert_eq!((summary.class, summary.z), (1, 2.0));
    let summary = focus(ends(1));
    assert_eq!((summary.class, summary.z), (0, 0.0));
}

#[test]
fn ceiling() {
    let sizes = |width, height| Sizes::packed(width, height, 1, 8);
    // Past the ceiling's test: the frame is what is missing.
    assert_eq!(
        plane(&with_sizes(sizes(65_536, 65_536)), [0; 4]),
        Err(NO_FRAME)
    );
    assert_eq!(
        plane(&with_sizes(sizes(65_537, 65_536)), [0; 4]),
        Err(CEILING)
    );
}

#[test]
fn z_classes() {
    let stated = |step| {
        let summary = focus(parts::focus(3, step));
        (summary.class, summary.z)
    };
    assert_eq!(stated(1000.0), (1, 1000.0));
    assert_eq!(stated(1000.0001), (3, 0.0));
    assert_eq!(stated(1e-6), (1, 1e-6));
    assert_eq!(stated(-2.0), (1, 2.0));
    assert_eq!(stated(9.9e-7), (2, 0.0));
    assert_eq!(stated(1e39), (0, 0.0));
    assert_eq!(stated(1e-46), (0, 0.0));
    assert_eq!(stated(f64::NAN), (0, 0.0));
}

/// Mistakes that look right: taking the scene as the outermost loop whatever the file says; reading rows as if there
/// were no padding behind them; looking for loops below a level that says none. Believing the map's sizes and taking
/// the first of two entries of one name are in the next test.
#[test]
fn tempting() {
    let roller = sample::Roller {
        padding: 5,
        focus_outside: true,
        ..sample::Roller::new(3, 2, 2, 3, 2)
    };
    let file = roller.file();
    let expected = |point, step, lamp| -> Vec<u8> {
        let places = (0..2).flat_map(|y| (0..3).map(move |x| (x, y)));
        let sample = |(x, y)| sample::roller::sample(point, step, lamp, x, y).to_le_bytes();
        places.flat_map(sample).collect()
    };
    for (point, step, lamp) in [(0, 0, 0), (2, 0, 1), (1, 1, 0), (2, 1, 1)] {
        let at = [point as u64, 0, lamp as u64, step as u64];
        assert_eq!(plane(&file, at).unwrap(), expected(point, step, lamp));
    }
    let below = looped("b", TIME, parts::counted(5), Vec::new());
    let stopped = looped("SLxExperiment", 0, parts::counted(2), vec![below.clone()]);
    assert_eq!(opened(&with_experiment(stopped)).depth, 0);
    let running = looped("SLxExperiment", POINTS, parts::counted(2), vec![below]);
    assert_eq!(opened(&with_experiment(running)).depth, 2);
}

#[test]
fn the_last_entry_of_a_name_wins() {
    let mut file = of_trees(&[
        (parts::ATTRIBUTES, parts::attributes(SIZES)),
        (parts::EXPERIMENT, parts::experiment(&[])),
    ]);
    file.add("ImageDataSeq|0!", &parts::frame(&[1, 2, 3, 4]));
    file.add("ImageDataSeq|0!", &parts::frame(&[5, 6, 7, 8]));
    file.entries.iter_mut().for_each(|entry| entry.size = 1);
    assert_eq!(plane(&file.clone().finish(), [0; 4]).unwrap(), [5, 6, 7, 8]);
    file.entries.swap(2, 3);
    assert_eq!(plane(&file.finish(), [0; 4]).unwrap(), [1, 2, 3, 4]);
}

/// Each tree has the whole table to itself, and needs an entry for every record in it, also for one whose value is at
/// fault.
#[test]
fn table_with_no_entry_left() {
    let file = with_experiment(looped("SLxExperiment", TIME, parts::counted(2), Vec::new()));
    let records = tree(&file, parts::ATTRIBUTES).unwrap().len();
    assert_eq!(records, 7);
    assert!(second::open(&file, &mut vec![1; 48 * 7]).is_ok());
    assert_eq!(second::open(&file, &mut vec![1; 48 * 7 - 1]), Err(TABLE));
    // A cut value: the record itself has its entry first.
    let (file, name) = at_100(&[3, 2, 0x61, 0, 0, 0, 5]);
    let summary = opened(&file);
    assert_eq!(
        second::tree(&file, &summary, name.as_bytes(), &mut []),
        TABLE
    );
    assert_eq!(
        second::tree(&file, &summary, name.as_bytes(), &mut [0; 48]),
        CUT
    );
}

#[test]
fn deep() {
    let nested = |levels: usize, innermost: Record| {
        (0..levels).fold(innermost, |inner, _| level("n", vec![inner]))
    };
    let read = |record: Record| {
        let file = with_more(&[("Spare!", record)]);
        tree(&file, "Spare!").map(|entries| entries.len())
    };
    assert_eq!(read(nested(64, u32("x", 1))), Ok(65));
    assert_eq!(read(nested(63, level("x", Vec::new()))), Ok(64));
    assert_eq!(read(nested(64, level("x", Vec::new()))), Err(DEEP));
}

#[test]
fn level_counts() {
    let counted = |count| Record {
        kind: 11,
        name: Vec::new(),
        value: Value::Level(Level {
            count: Some(count),
            skip: Some(8 * count.min(10_000_000) as usize),
            ..Level::default()
        }),
    };
    let read = |record: Record| {
        let file = with_more(&[("Spare!", record)]);
        let summary = second::open(&file, &mut [0; 480]).unwrap();
        second::tree(&file, &summary, b"Spare!", &mut [0; 480])
    };
    assert_eq!(read(counted(3)), 0);
    assert_eq!(read(counted(10_000_000)), 0);
    assert_eq!(read(counted(10_000_001)), LEVEL);
}

#[test]
fn merged_names() {
    let lone = |unit: u16| Record {
        name: vec![unit, 0x7A],
        ..raw(1, "", &[1])
    };
    let records = vec![
        u32("a", 1),
        lone(0xD800),
        u32("", 7),
        lone(0xFFFD),
        text("a", "b"),
    ];
    let file = with_more(&[("Spare!", level("x", records))]);
    let root = values::root(&file, &tree(&file, "Spare!").unwrap());
    let slots = &root.level("x").unwrap().slots;
    let names: Vec<&[u32]> = slots.iter().map(|slot| &slot.name[..]).collect();
    assert_eq!(names, [&[0x61][..], &[0xFFFD], &[]]);
    assert!(matches!(slots[0].value, Read::Text(_, 1)));
    assert_eq!(slots[2].value, Read::Whole(7));
}

//! Small files for rules of document 01 that random ones seldom meet, each under its own label.

use sample::file::Nd2;
use sample::parts::{self, Plane, Sizes, FOCUS, POINTS, SPECTRAL, TIME};
use sample::tree::{
    f64, flag, i32, level, list, packed, raw, text, u32, u64, Level, Record, Value,
};

/// A label and a file.
pub type Rule = (&'static str, Vec<u8>);

/// How many components a plane record covers.
const COUNT: &str = "uiCompCount";

const SIZES: Sizes = Sizes {
    width: 2,
    stride: 14,
    height: 2,
    components: 3,
    bits: 16,
};

pub fn all() -> Vec<Rule> {
    let mut rules = attributes();
    rules.extend(loops());
    rules.extend(points());
    rules.extend(trees());
    rules.extend(focus());
    rules.extend(calibrations());
    rules.extend(map());
    rules
}

/// The needed trees as bytes, further ones, and two frames.
fn file_of(attributes: &Record, experiment: &[u8], more: &[(&str, Record)]) -> Nd2 {
    let mut file = Nd2::new();
    file.add(parts::ATTRIBUTES, &attributes.encode());
    file.add(parts::EXPERIMENT, experiment);
    for (name, tree) in more {
        file.add(name, &tree.encode());
    }
    for n in 0..2 {
        let rows: Vec<u8> = (0..28).map(|i| 100 * n + i).collect();
        file.add(&parts::frame_name(n as u64), &parts::frame(&rows));
    }
    file
}

fn with_sizes(sizes: Sizes) -> Vec<u8> {
    let experiment = parts::experiment(&[]).encode();
    file_of(&parts::attributes(sizes), &experiment, &[]).finish()
}

fn with_bytes(experiment: &[u8]) -> Vec<u8> {
    file_of(&parts::attributes(SIZES), experiment, &[]).finish()
}

fn with(experiment: Record) -> Vec<u8> {
    with_bytes(&experiment.encode())
}

/// One level of an experiment: its type, its parameters, what stands beside these, and the levels below it.
fn looped(kind: u32, parameters: Vec<Record>, beside: Vec<Record>, below: Vec<Record>) -> Record {
    let mut records = vec![u32("eType", kind), level("uLoopPars", parameters)];
    records.extend(beside);
    if !below.is_empty() {
        records.push(level("ppNextLevelEx", below));
    }
    level("SLxExperiment", records)
}

fn counted(kind: u32, count: u32) -> Record {
    looped(kind, parts::counted(count), Vec::new(), Vec::new())
}

fn named(name: &str, mut record: Record) -> Record {
    record.name = sample::tree::named(name);
    record
}

/// A record with a name of just these units.
fn of_units(units: &[u16], mut record: Record) -> Record {
    record.name = units.iter().copied().chain([0]).collect();
    record
}

fn attributes() -> Vec<Rule> {
    let compressed = |value: f64| {
        let mut tree = parts::attributes(SIZES);
        if let Some(level) = tree.level_mut() {
            level.records.push(f64("eCompression", value));
        }
        file_of(&tree, &parts::experiment(&[]).encode(), &[]).finish()
    };
    let components = |components| with_sizes(Sizes::packed(1, 1, components, 8));
    vec![
        ("row bytes 14 of 12", with_sizes(SIZES)),
        (
            "row bytes 12",
            with_sizes(Sizes {
                stride: 12,
                ..SIZES
            }),
        ),
        (
            "row bytes 11",
            with_sizes(Sizes {
                stride: 11,
                ..SIZES
            }),
        ),
        ("1,024 components", components(1024)),
        ("1,025 components", components(1025)),
        ("eCompression 2.9", compressed(2.9)),
        ("eCompression 1.9", compressed(1.9)),
    ]
}

fn loops() -> Vec<Rule> {
    let below = |first: Record, then: Record| {
        let inner = vec![named("a", first), named("b", then)];
        with(looped(POINTS, parts::counted(2), Vec::new(), inner))
    };
    let spectral = vec![
        u32("uiCount", 1_000_001),
        level("pPlanes", parts::counted(2)),
    ];
    let inner = vec![named("a", counted(TIME, 2))];
    vec![
        ("a count of 1,000,000", with(counted(TIME, 1_000_000))),
        ("a count of 1,000,001", with(counted(TIME, 1_000_001))),
        (
            "side by side, 5 then 3",
            below(counted(TIME, 5), counted(TIME, 3)),
        ),
        (
            "side by side, 3 then 5",
            below(counted(TIME, 3), counted(TIME, 5)),
        ),
        (
            "side by side, of two types",
            below(counted(TIME, 3), counted(FOCUS, 5)),
        ),
        (
            "pPlanes before uiCount",
            with(looped(SPECTRAL, spectral, Vec::new(), inner.clone())),
        ),
        (
            "a loop below a stopped one",
            with(looped(TIME, parts::counted(0), Vec::new(), inner)),
        ),
    ]
}

fn points() -> Vec<Rule> {
    let flags = |name: &str, set: &[u8]| list(name, set.iter().map(|&b| flag("", b)).collect());
    let of =
        |points: Record, beside: Vec<Record>| with(looped(POINTS, vec![points], beside, vec![]));
    let point = || level("", vec![f64("dPosX", 1.0)]);
    let alone = [0xD800, 0xFFFD, 0xDC00].map(|unit| of_units(&[unit], point()));
    let pair = [[0xD83D, 0xDE00], [0xD83D, 0xDE01]].map(|units| of_units(&units, point()));
    vec![
        (
            "pItemValid longer than the points",
            of(
                flags("Points", &[1, 1]),
                vec![flags("pItemValid", &[0, 1, 1, 1])],
            ),
        ),
        (
            "lone surrogates are one name",
            of(level("Points", alone.to_vec()), Vec::new()),
        ),
        (
            "pairs of surrogates are two",
            of(level("Points", pair.to_vec()), Vec::new()),
        ),
        (
            "two unnamed values in a level with a named one",
            of(
                level("Points", vec![flag("", 1), flag("a", 1), flag("", 1)]),
                Vec::new(),
            ),
        ),
    ]
}

/// A level's record that says another count, with nothing skipped.
fn of_items(count: u32) -> Record {
    let mut record = counted(TIME, 2);
    if let Value::Level(level) = &mut record.value {
        *level = Level {
            records: std::mem::take(&mut level.records),
            count: Some(count),
            length: None,
            skip: Some(0),
        };
    }
    record
}

/// So many levels, one in another.
fn nested(levels: usize) -> Record {
    (1..levels).fold(level("", Vec::new()), |inner, _| level("", vec![inner]))
}

fn trees() -> Vec<Rule> {
    let spare = |record: Record| {
        let more = [(sample::random::SPARE, record)];
        let experiment = parts::experiment(&[]).encode();
        file_of(&parts::attributes(SIZES), &experiment, &more).finish()
    };
    vec![
        ("10,000,000 items", with(of_items(10_000_000))),
        ("10,000,001 items", with(of_items(10_000_001))),
        ("type 10 before its name", with_bytes(&[10, 255])),
        ("type 12 after its name", with_bytes(&[12, 255])),
        ("packed before its name", with_bytes(&[76, 255])),
        ("64 levels", with(nested(64))),
        ("65 levels", with(nested(65))),
        ("66 levels", with(nested(66))),
        ("a record of one byte", with_bytes(&[3])),
        ("a pointer", spare(raw(7, "p", &[9; 8]))),
        (
            "a repeated name",
            with(level(
                "SLxExperiment",
                vec![
                    u32("eType", 4),
                    level("uLoopPars", parts::counted(3)),
                    u32("eType", 1),
                ],
            )),
        ),
    ]
}

fn calibrated(calibration: Record, experiment: &Record) -> Vec<u8> {
    let more = [(parts::CALIBRATION, calibration)];
    file_of(&parts::attributes(SIZES), &experiment.encode(), &more).finish()
}

fn focus() -> Vec<Rule> {
    let of = |parameters: Vec<Record>| {
        let experiment = looped(FOCUS, parameters, Vec::new(), Vec::new());
        calibrated(parts::calibration(0.5), &experiment)
    };
    let range = |count| {
        let (high, low) = (f64("dZHigh", 10.0), f64("dZLow", -10.0));
        of(vec![u32("uiCount", count), high, low])
    };
    let inner = named("a", looped(FOCUS, parts::focus(2, 0.25), vec![], vec![]));
    let below = looped(TIME, parts::counted(2), Vec::new(), vec![inner.clone()]);
    let stopped = looped(TIME, parts::counted(0), Vec::new(), vec![inner]);
    vec![
        ("z 1000 is class 1", of(parts::focus(2, 1000.0))),
        ("z 1000.0001 is class 3", of(parts::focus(2, 1000.0001))),
        ("z 1e-6", of(parts::focus(2, 1e-6))),
        ("z 9e-7", of(parts::focus(2, 9e-7))),
        ("dZStep -2", of(parts::focus(2, -2.0))),
        ("dZHigh 10, dZLow -10, uiCount 11", range(11)),
        ("dZHigh 10, dZLow -10, uiCount 1", range(1)),
        (
            "z below a loop",
            calibrated(parts::calibration(0.5), &below),
        ),
        (
            "z below a stopped loop",
            calibrated(parts::calibration(0.5), &stopped),
        ),
    ]
}

fn calibrations() -> Vec<Rule> {
    let of = |calibration| calibrated(calibration, &counted(TIME, 2));
    let stated = |value: Record| of(level("SLxCalibration", vec![value]));
    let mut many = vec![f64("dCalibration", 0.5)];
    many.extend((0..12).map(|i| flag("", i)));
    vec![
        ("a packed calibration", of(packed(&[0; 12]))),
        (
            "a calibration of more records than the other trees",
            of(level("SLxCalibration", many)),
        ),
        ("dCalibration 0", stated(f64("dCalibration", 0.0))),
        ("dCalibration -1", stated(f64("dCalibration", -1.0))),
        (
            "dCalibration 2^64 - 1, whole",
            stated(u64("dCalibration", u64::MAX)),
        ),
        (
            "dCalibration between two singles",
            stated(f64("dCalibration", 1.0 + f64::from(f32::EPSILON) / 2.0)),
        ),
        (
            "dCalibration past the singles",
            stated(f64("dCalibration", 1e39)),
        ),
    ]
}

/// A file of three components and these channels.
fn with_channels(channels: Record) -> Vec<u8> {
    let experiment = parts::experiment(&[]).encode();
    let more = [(parts::CHANNELS, channels)];
    file_of(&parts::attributes(SIZES), &experiment, &more).finish()
}

/// Three components under plane records that say how many they cover, or nothing of it.
fn covering(counts: &[Option<u64>]) -> Vec<u8> {
    let names = ["first", "second", "third"].into_iter().zip(1..);
    let plane = |((name, color), &covers)| Plane {
        name,
        color,
        covers,
    };
    let planes: Vec<Plane> = names.zip(counts).map(plane).collect();
    with_channels(parts::channels(&planes))
}

/// Three components under two plane records in a level of this name; in the first one stand these fields.
fn saying(name: &str, fields: Vec<Record>) -> Vec<u8> {
    let then = vec![text("sDescription", "then"), u32("uiColor", 255)];
    let planes = vec![level("a0", fields), level("a1", then)];
    with_channels(parts::channels_in(name, planes))
}

/// Plane records and how many of the three components they cover.
pub fn covered() -> Vec<Rule> {
    let mut rules = covered_counts();
    rules.extend(covered_kinds());
    rules
}

fn covered_counts() -> Vec<Rule> {
    let most = Some(u64::MAX);
    vec![
        ("one plane record for 3 components", covering(&[Some(3)])),
        ("uiCompCount 2, then none", covering(&[Some(2), None])),
        ("uiCompCount 2, then no record", covering(&[Some(2)])),
        ("uiCompCount 0, then none", covering(&[Some(0), None])),
        ("uiCompCount 7", covering(&[Some(7)])),
        ("2^64 - 1 in two records", covering(&[most, most])),
        ("2^64 - 1 behind another", covering(&[None, most, most])),
        (
            "a record for the rest, then one that is cut off",
            covering(&[None, Some(2), None]),
        ),
    ]
}

/// Counts of other kinds, and counts in other places.
fn covered_kinds() -> Vec<Rule> {
    let first = || text("sDescription", "first");
    let said = |count: Record| saying("sPlaneNew", vec![first(), count]);
    let beside = vec![u32(COUNT, 3), level("a0", vec![first()])];
    vec![
        ("a text as uiCompCount", said(text(COUNT, "2"))),
        ("uiCompCount -2", said(i32(COUNT, -2))),
        ("a flag as uiCompCount", said(flag(COUNT, 3))),
        ("uiCompCount 2.9", said(f64(COUNT, 2.9))),
        (
            "an empty record for 2",
            saying("sPlaneNew", vec![u32(COUNT, 2)]),
        ),
        (
            "uiCompCount 2 in sPlane",
            saying("sPlane", vec![first(), u32(COUNT, 2)]),
        ),
        (
            "uiCompCount beside the plane records",
            with_channels(parts::channels_in("sPlaneNew", beside)),
        ),
    ]
}

fn map() -> Vec<Rule> {
    let experiment = counted(POINTS, 3).encode();
    let file = || file_of(&parts::attributes(SIZES), &experiment, &[]);
    let mut repeated = file();
    repeated.add(&parts::frame_name(0), &parts::frame(&[9; 28]));
    repeated.entries[4].size = u64::MAX;
    let mut leading = file();
    leading.entries[3].name = b"ImageDataSeq|01!".to_vec();
    let mut sizes = file();
    sizes.entries.iter_mut().for_each(|entry| entry.size = 1);
    vec![
        ("a frame's data to the file's end", reaching(file(), 0)),
        ("a frame's data past the file's end", reaching(file(), 1)),
        ("a frame twice in the map: the last one", repeated.finish()),
        ("a frame's number with a zero in front", leading.finish()),
        ("wrong sizes in the map", sizes.finish()),
    ]
}

/// The file with the first frame's chunk reaching so many bytes past the file's end.
fn reaching(file: Nd2, past: usize) -> Vec<u8> {
    let entry = &file.entries[2];
    let header = entry.offset as usize;
    let data = header + 16 + entry.name.len();
    let mut bytes = file.finish();
    let len = (bytes.len() - data + past) as u64;
    bytes[header + 8..header + 16].copy_from_slice(&len.to_le_bytes());
    bytes
}

//! Pixel sizes in picometres: doubles where these turn, numbers of other kinds, what is no size, and each refusal. The
//! files have a calibration and nothing else; a summary says where their map is.

use crate::questions::for_picometres;
use crate::step::Step;
use sample::parts::{self, CALIBRATION};
use sample::pixel::{others, DOUBLES, FIELD};
use sample::tree::{double_bits, f64, level, packed, raw, u32, Record};
use sample::Nd2;
use second::trees::ENTRY_BYTES;
use second::Summary;

/// A label and a calibration.
type Told = (&'static str, Vec<u8>);

pub fn all() -> Vec<Step> {
    let mut steps = Vec::new();
    for (name, bits) in DOUBLES {
        let calibration = calibration(vec![double_bits(FIELD, bits)]);
        steps.extend(asked(&format!("dCalibration {name}"), &calibration));
    }
    for (label, records) in others() {
        steps.extend(asked(label, &calibration(records)));
    }
    for (label, calibration) in trees() {
        steps.extend(asked(label, &calibration));
    }
    steps.extend(tables());
    steps.extend(chunks());
    unrepeated(steps)
}

/// The steps without summaries that the ones before them said too.
fn unrepeated(mut steps: Vec<Step>) -> Vec<Step> {
    let mut last = None;
    steps.retain(|step| match step {
        Step::Summary(summary) => last.replace(*summary) != Some(*summary),
        _ => true,
    });
    steps
}

fn calibration(records: Vec<Record>) -> Vec<u8> {
    level("SLxCalibration", records).encode()
}

/// A file of this chunk alone.
fn file_of(calibration: &[u8]) -> Nd2 {
    let mut file = Nd2::new();
    file.add(CALIBRATION, calibration);
    file
}

/// A summary that can be used, for a file that does not open.
fn summary(file: &[u8]) -> Summary {
    Summary {
        width: 1,
        stride: 1,
        height: 1,
        components: 1,
        bits: 8,
        map: second::map::place(file).unwrap_or_default(),
        ..Summary::default()
    }
}

/// A label, a file and its summary.
fn about(label: &str, file: Vec<u8>) -> Vec<Step> {
    let summary = Step::Summary(summary(&file));
    vec![Step::Label(label.to_string()), Step::File(file), summary]
}

/// The size that a calibration states, with a table that is just enough.
fn asked(label: &str, calibration: &[u8]) -> Vec<Step> {
    let file = file_of(calibration).finish();
    let table = for_picometres(&file, &summary(&file));
    let mut steps = about(label, file);
    steps.push(Step::Picometres { table });
    steps
}

/// Another outermost record, and trees that cannot be read.
fn trees() -> Vec<Told> {
    let half = || f64(FIELD, 0.5);
    let good = calibration(vec![half()]);
    let deep = (0..65).fold(level("", vec![]), |inner, _| level("", vec![inner]));
    let mut many = level("", vec![]);
    if let Some(level) = many.level_mut() {
        level.count = Some(10_000_001);
    }
    vec![
        ("no SLxCalibration", level("SLx", vec![half()]).encode()),
        (
            "SLxCalibration as a double",
            f64("SLxCalibration", 0.5).encode(),
        ),
        ("a cut calibration", good[..good.len() - 1].to_vec()),
        (
            "a type that there is not",
            calibration(vec![half(), raw(12, "", &[])]),
        ),
        (
            "a packed record",
            calibration(vec![half(), packed(&[0; 10])]),
        ),
        ("a deep calibration", deep.encode()),
        ("too many items", calibration(vec![half(), many])),
        ("an empty calibration", Vec::new()),
    ]
}

/// Tables around what three entries take, for a size that is past the range.
fn tables() -> Vec<Step> {
    let records = vec![u32("a", 1), f64(FIELD, f64::INFINITY)];
    let file = file_of(&calibration(records)).finish();
    let mut steps = about("tables for a calibration of three entries", file);
    let enough = 3 * ENTRY_BYTES;
    for table in [0, 1, 47, 48, 96, enough - 1, enough, enough + 1, 200] {
        steps.push(Step::Picometres { table });
    }
    steps
}

/// No such chunk, an entry that leads to none, a map that is cut, and a summary that is refused.
fn chunks() -> Vec<Step> {
    let good = parts::calibration(0.5).encode();
    let mut absent = file_of(&good);
    absent.entries.clear();
    let mut elsewhere = file_of(&good);
    elsewhere.entries[0].offset += 1;
    let table = 2 * ENTRY_BYTES;
    let mut steps = Vec::new();
    for (label, file) in [("no calibration", absent), ("no chunk", elsewhere)] {
        steps.extend(about(label, file.finish()));
        steps.push(Step::Picometres { table });
    }
    let file = file_of(&good).finish();
    let mut cut = summary(&file);
    cut.map.len -= 1;
    let refused = Summary { bits: 24, ..cut };
    steps.extend(about(
        "a calibration, its map cut, a summary that is refused",
        file,
    ));
    steps.push(Step::Picometres { table });
    for summary in [cut, refused] {
        steps.extend([Step::Summary(summary), Step::Picometres { table }]);
    }
    steps
}

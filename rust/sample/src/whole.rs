//! Fields that are read as whole numbers, each in a small file that shows what was read, and doubles at the limits of such a
//! reading.

use crate::file::Nd2;
use crate::parts::{self, Sizes, FOCUS, POINTS, SPECTRAL, TIME};
use crate::tree::{double_bits, f64, flag, i64, level, list, text, u32, u64, Record};

/// A double's name and its bits.
pub type Double = (&'static str, u64);

/// Whole numbers in and out of range, fractions, and what is no number.
pub const DOUBLES: [Double; 15] = [
    ("2^53 + 2", 0x4340_0000_0000_0001),
    ("2^63", 0x43E0_0000_0000_0000),
    ("-2^63", 0xC3E0_0000_0000_0000),
    ("2^64 - 2048", 0x43EF_FFFF_FFFF_FFFF),
    ("2^64", 0x43F0_0000_0000_0000),
    ("0.5", 0x3FE0_0000_0000_0000),
    ("-0.0", 0x8000_0000_0000_0000),
    ("smallest subnormal", 0x0000_0000_0000_0001),
    ("largest subnormal", 0x000F_FFFF_FFFF_FFFF),
    ("infinity", 0x7FF0_0000_0000_0000),
    ("-infinity", 0xFFF0_0000_0000_0000),
    ("quiet NaN", 0x7FF8_0000_0000_0000),
    ("signalling NaN", 0x7FF0_0000_0000_0001),
    ("-quiet NaN", 0xFFF8_0000_0000_0000),
    ("-signalling NaN", 0xFFF0_0000_0000_0001),
];

/// A field, by a label and by its record's name; a number that it usually has; and what writes a file with this record of
/// it, or without one.
pub struct Field {
    pub label: &'static str,
    name: &'static str,
    pub signed: bool,
    pub usual: u32,
    file: fn(Option<Record>) -> Vec<u8>,
}

impl Field {
    const fn signed(self) -> Field {
        Field {
            signed: true,
            ..self
        }
    }

    /// The file with this double in the field.
    pub fn with_double(&self, bits: u64) -> Vec<u8> {
        (self.file)(Some(double_bits(self.name, bits)))
    }

    /// The file with this whole number in the field, as long as a double.
    pub fn with_whole(&self, number: i128) -> Vec<u8> {
        let record = match u64::try_from(number) {
            Ok(number) => u64(self.name, number),
            Err(_) => i64(self.name, number as i64),
        };
        (self.file)(Some(record))
    }

    pub fn without(&self) -> Vec<u8> {
        (self.file)(None)
    }
}

/// A field that is read unsigned.
const fn field(
    label: &'static str,
    name: &'static str,
    usual: u32,
    file: fn(Option<Record>) -> Vec<u8>,
) -> Field {
    Field {
        label,
        name,
        signed: false,
        usual,
        file,
    }
}

pub static FIELDS: [Field; 14] = [
    field("uiWidth", "uiWidth", 2, |r| sized("uiWidth", r)),
    field("uiWidthBytes", "uiWidthBytes", 2, |r| {
        sized("uiWidthBytes", r)
    }),
    field("uiHeight", "uiHeight", 2, |r| sized("uiHeight", r)),
    field("uiComp", "uiComp", 2, |r| sized("uiComp", r)),
    field("uiBpcInMemory", "uiBpcInMemory", 16, |r| {
        sized("uiBpcInMemory", r)
    }),
    field("eCompression", "eCompression", 2, |r| {
        sized("eCompression", r)
    })
    .signed(),
    field("eType", "eType", POINTS, typed).signed(),
    field("uiCount", "uiCount", 2, counted),
    field("pItemValid", "", 2, valid),
    field("pPlanes.uiCount", "uiCount", 2, |r| spectral(3, r)),
    field("eType of z", "eType", FOCUS, z_typed).signed(),
    field("uiCount of z", "uiCount", 2, z_counted),
    field("uiColor", "uiColor", 2, colored),
    field("uiCompCount", "uiCompCount", 2, covering),
];

/// The planes' count of a spectral loop once more, beside a count that is too large: it shows that the planes' is taken.
pub static PREFERRED: Field = field("pPlanes.uiCount before 1,000,001", "uiCount", 2, |r| {
    spectral(1_000_001, r)
});

/// One sample of so many components, with rows that have room for any.
fn sizes(components: u64) -> Sizes {
    Sizes {
        width: 1,
        stride: u64::MAX,
        height: 1,
        components,
        bits: 8,
    }
}

fn file(attributes: Record, experiment: Record, more: Option<(&str, Record)>) -> Vec<u8> {
    let mut file = Nd2::new();
    file.add(parts::ATTRIBUTES, &attributes.encode());
    file.add(parts::EXPERIMENT, &experiment.encode());
    if let Some((name, tree)) = more {
        file.add(name, &tree.encode());
    }
    file.finish()
}

/// The attributes with this record in the place of the one of this name.
fn sized(name: &str, record: Option<Record>) -> Vec<u8> {
    let mut tree = parts::attributes(sizes(1));
    if let Some(level) = tree.level_mut() {
        level.records.retain(|r| r.name != crate::tree::named(name));
        level.records.extend(record);
    }
    file(tree, parts::experiment(&[]), None)
}

/// A level of an experiment: records beside its parameters, these, and a level below it.
fn looped(
    name: &str,
    beside: Option<Record>,
    parameters: Vec<Record>,
    below: Option<Record>,
) -> Record {
    let mut records: Vec<Record> = beside.into_iter().collect();
    records.push(level("uLoopPars", parameters));
    records.extend(below.map(|below| level("ppNextLevelEx", vec![below])));
    level(name, records)
}

fn with_experiment(experiment: Record) -> Vec<u8> {
    file(parts::attributes(sizes(1)), experiment, None)
}

/// Two times, as the level below another.
fn twice() -> Option<Record> {
    let kind = Some(u32("eType", TIME));
    Some(looped("a", kind, parts::counted(2), None))
}

/// A loop of any type and a count of 3, and one of two times below it.
fn typed(record: Option<Record>) -> Vec<u8> {
    let experiment = looped("SLxExperiment", record, parts::counted(3), twice());
    with_experiment(experiment)
}

/// A loop of any count.
fn counted(record: Option<Record>) -> Vec<u8> {
    let kind = Some(u32("eType", TIME));
    let parameters = record.into_iter().collect();
    with_experiment(looped("SLxExperiment", kind, parameters, None))
}

/// Two points, of which the second is valid and the first one says whether it is.
fn valid(record: Option<Record>) -> Vec<u8> {
    let points = list("Points", vec![flag("", 1), flag("", 1)]);
    let said = record.into_iter().chain([flag("", 1)]).collect();
    let records = vec![
        u32("eType", POINTS),
        level("uLoopPars", vec![points]),
        list("pItemValid", said),
    ];
    with_experiment(level("SLxExperiment", records))
}

/// A spectral loop that counts its planes and has a count beside them; below it one of two times.
fn spectral(count: u32, record: Option<Record>) -> Vec<u8> {
    let kind = Some(u32("eType", SPECTRAL));
    let planes = level("pPlanes", record.into_iter().collect());
    let parameters = vec![u32("uiCount", count), planes];
    with_experiment(looped("SLxExperiment", kind, parameters, twice()))
}

/// A file with a pixel size whose experiment is no loop; below it comes what z is looked for in, with these records and
/// parameters, and below that a focus loop with a step of 0.25.
fn with_z(kind: Option<Record>, parameters: Vec<Record>) -> Vec<u8> {
    let step = vec![f64("dZStep", 0.25)];
    let last = looped("a", Some(u32("eType", FOCUS)), step, None);
    let first = looped("a", kind, parameters, Some(last));
    let experiment = level("SLxExperiment", vec![level("ppNextLevelEx", vec![first])]);
    let more = (parts::CALIBRATION, parts::calibration(0.5));
    file(parts::attributes(sizes(1)), experiment, Some(more))
}

fn z_typed(record: Option<Record>) -> Vec<u8> {
    with_z(record, vec![f64("dZStep", 0.5)])
}

fn z_counted(record: Option<Record>) -> Vec<u8> {
    let mut parameters = vec![f64("dZHigh", 10.0), f64("dZLow", -10.0)];
    parameters.extend(record);
    with_z(Some(u32("eType", FOCUS)), parameters)
}

/// A file of so many components and these planes.
fn with_planes(components: u64, planes: Vec<Record>) -> Vec<u8> {
    let more = (parts::CHANNELS, parts::channels_in("sPlane", planes));
    let attributes = parts::attributes(sizes(components));
    file(attributes, parts::experiment(&[]), Some(more))
}

fn colored(record: Option<Record>) -> Vec<u8> {
    with_planes(1, vec![level("a", record.into_iter().collect())])
}

/// Three components and the planes a and b, of which the first one says how many it covers.
fn covering(record: Option<Record>) -> Vec<u8> {
    let plane = |name: &str, said: Option<Record>| {
        let mut records = vec![text("sDescription", name)];
        records.extend(said);
        level(name, records)
    };
    with_planes(3, vec![plane("a", record), plane("b", None)])
}

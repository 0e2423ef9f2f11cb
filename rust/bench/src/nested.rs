//! Files whose trees are as deep as they come and whose experiments are nested as often, so that calls take much stack.

use crate::families;
use crate::files::{self, name_of, renamed, Units};
use sample::parts::{self, Plane, Sizes};
use sample::tree::{flag, level, list, u32, Record};
use sample::{random, Nd2};

/// What a file is called here, and its bytes.
pub type Named = (String, Vec<u8>);

/// A tree has 64 levels, and each experiment but the first stands two below another.
const EXPERIMENTS: usize = 32;
/// How many entries the levels have that are counted or walked: more than go into one part of a level.
const ENTRIES: usize = 200;
/// How many random files there are.
const SEEDS: u64 = 50;

const KINDS: [(&str, u32); 6] = [
    ("time", parts::TIME),
    ("points", parts::POINTS),
    ("focus", parts::FOCUS),
    ("spectral", parts::SPECTRAL),
    ("custom", parts::CUSTOM),
    ("other time", parts::OTHER_TIME),
];

type Records = fn() -> Vec<Record>;

/// What stands in the levels that are counted and walked beside the one that leads on.
const BESIDE: [(&str, Records); 4] = [
    ("alone", Vec::new),
    ("beside names", names),
    ("beside names that come twice", repeated),
    ("beside unnamed ones", || vec![flag("", 1); ENTRIES]),
];

pub fn all() -> Vec<Named> {
    let mut all = vec![("64 levels".to_string(), files::deep())];
    all.extend(deep_chunks());
    for (kind, number) in KINDS {
        for (beside, records) in BESIDE {
            let experiment = chain(number, &records(), EXPERIMENTS);
            let name = format!("{EXPERIMENTS} nested {kind} loops, {beside}");
            all.push((name, with_experiment(&experiment)));
        }
    }
    all.extend(families::ALL.iter().map(|family| {
        let made = family.file(4 * families::NESTINGS);
        (family.what.to_string(), made.file)
    }));
    all.extend((0..SEEDS).map(|seed| (format!("seed {seed}"), random::file(seed))));
    all
}

fn names() -> Vec<Record> {
    let one = |i| renamed(flag("", 1), name_of(i, Units::First));
    (0..ENTRIES).map(one).collect()
}

fn repeated() -> Vec<Record> {
    [names(), names()].concat()
}

/// So many experiments, one in another, all of one kind, with what stands beside each. The last leads to no other.
fn chain(kind: u32, beside: &[Record], experiments: usize) -> Record {
    let mut parameters = parts::counted(1);
    let mut next = beside.to_vec();
    if experiments > 1 {
        // in the last one this would be a level too many
        parameters.push(level("Points", beside.to_vec()));
        next.push(chain(kind, beside, experiments - 1));
    }
    let records = vec![
        u32("eType", kind),
        level("uLoopPars", parameters),
        level("ppNextLevelEx", next),
    ];
    let name = match experiments {
        EXPERIMENTS => "SLxExperiment",
        _ => "i0000000000",
    };
    level(name, records)
}

/// A file with a pixel size, two channels and a frame.
fn with_experiment(experiment: &Record) -> Vec<u8> {
    let trees = Trees {
        experiment: experiment.clone(),
        ..Trees::usual()
    };
    trees.file()
}

/// The four trees that calls look into.
struct Trees {
    attributes: Record,
    experiment: Record,
    calibration: Record,
    channels: Record,
}

impl Trees {
    fn usual() -> Trees {
        let lamps = [Plane::new("lamp 0", 255), Plane::new("lamp 1", 0)];
        Trees {
            attributes: parts::attributes(Sizes::packed(4, 4, 2, 16)),
            experiment: parts::experiment(&[]),
            calibration: parts::calibration(0.325),
            channels: parts::channels(&lamps),
        }
    }

    fn file(&self) -> Vec<u8> {
        let mut file = Nd2::new();
        for (name, tree) in [
            (parts::ATTRIBUTES, &self.attributes),
            (parts::EXPERIMENT, &self.experiment),
            (parts::CALIBRATION, &self.calibration),
            (parts::CHANNELS, &self.channels),
        ] {
            file.add(name, &tree.encode());
        }
        file.add(&parts::frame_name(0), &parts::frame(&[7; 64]));
        file.finish()
    }
}

/// Files of which one of the four trees has 64 levels, and files of many plane records.
fn deep_chunks() -> Vec<Named> {
    let usual = Trees::usual;
    let deep = |mut tree: Record| {
        if let Some(level) = tree.level_mut() {
            level.records.push(files::levels(63));
        }
        tree
    };
    let (attributes, experiment) = (deep(usual().attributes), deep(usual().experiment));
    let (calibration, channels) = (deep(usual().calibration), deep(usual().channels));
    let planes = |records| parts::channels_in("sPlane", records);
    #[rustfmt::skip]
    let trees = [
        ("64 levels of attributes", Trees { attributes, ..usual() }),
        ("64 levels of an experiment", Trees { experiment, ..usual() }),
        ("64 levels of a calibration", Trees { calibration, ..usual() }),
        ("64 levels of channels", Trees { channels, ..usual() }),
        ("plane records by names", Trees { channels: planes(names()), ..usual() }),
        ("plane records by names that come twice", Trees { channels: planes(repeated()), ..usual() }),
        ("plane records in a list", Trees { channels: planes(vec![list("", names())]), ..usual() }),
    ];
    let file = |(name, trees): (&str, Trees)| (name.to_string(), trees.file());
    trees.into_iter().map(file).collect()
}

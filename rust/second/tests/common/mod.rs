//! Small files for the tests, and the calls with lent bytes enough.
#![allow(dead_code)]

use sample::file::Nd2;
use sample::parts::{self, Sizes};
use sample::tree::{level, u32, Record};
use second::trees::{written, Entry};
use second::{Channel, Summary};

pub const SIZES: Sizes = Sizes {
    width: 2,
    stride: 2,
    height: 2,
    components: 1,
    bits: 8,
};

/// A file of trees by chunk name, without frames.
pub fn of_trees(trees: &[(&str, Record)]) -> Nd2 {
    let mut file = Nd2::new();
    for (name, tree) in trees {
        file.add(name, &tree.encode());
    }
    file
}

/// A file with these attributes and this experiment.
pub fn with(attributes: Record, experiment: Record) -> Vec<u8> {
    of_trees(&[
        (parts::ATTRIBUTES, attributes),
        (parts::EXPERIMENT, experiment),
    ])
    .finish()
}

pub fn with_sizes(sizes: Sizes) -> Vec<u8> {
    with(parts::attributes(sizes), parts::experiment(&[]))
}

pub fn with_experiment(experiment: Record) -> Vec<u8> {
    with(parts::attributes(SIZES), experiment)
}

/// A file whose calibration and channels are these trees.
pub fn with_more(more: &[(&str, Record)]) -> Vec<u8> {
    let mut trees = vec![
        (parts::ATTRIBUTES, parts::attributes(SIZES)),
        (parts::EXPERIMENT, parts::experiment(&[])),
    ];
    trees.extend_from_slice(more);
    of_trees(&trees).finish()
}

/// Attributes with one record put in the place of that of its name.
pub fn attributes_but(record: Record) -> Record {
    let mut tree = parts::attributes(SIZES);
    if let Some(level) = tree.level_mut() {
        let place = level.records.iter_mut().find(|r| r.name == record.name);
        *place.expect("a field of the attributes") = record;
    }
    tree
}

/// One experiment level: its type, its parameters and the levels below it.
pub fn looped(name: &str, kind: u32, parameters: Vec<Record>, below: Vec<Record>) -> Record {
    let mut records = vec![u32("eType", kind), level("uLoopPars", parameters)];
    if !below.is_empty() {
        records.push(level("ppNextLevelEx", below));
    }
    level(name, records)
}

pub fn open(file: &[u8]) -> Result<Summary, u32> {
    let mut table = vec![0xA5; 48 * (file.len() / 2) + 5];
    let answer = second::open(file, &mut table);
    assert!(table.iter().all(|&byte| byte == 0), "the table is not zero");
    answer
}

pub fn opened(file: &[u8]) -> Summary {
    open(file).expect("the file opens")
}

/// The entries of the tree under a name.
pub fn tree(file: &[u8], name: &str) -> Result<Vec<Entry>, u32> {
    let mut table = vec![0xA5; 48 * (file.len() / 2) + 5];
    match second::tree(file, &opened(file), name.as_bytes(), &mut table) {
        0 => Ok(written(&table)),
        refused => {
            assert!(table.iter().all(|&byte| byte == 0), "the table is not zero");
            Err(refused)
        }
    }
}

/// The plane at scene, t, c and z.
pub fn plane(file: &[u8], at: [u64; 4]) -> Result<Vec<u8>, u32> {
    let summary = opened(file);
    let bytes = summary.attributes().plane_bytes().expect("a plane");
    let mut samples = vec![0xA5; bytes.min(1 << 24) as usize + 3];
    let [scene, t, c, z] = at;
    let number = second::plane(file, &summary, scene, t, c, z, &mut samples);
    let rest = samples.split_off(samples.len() - 3);
    assert_eq!(rest, [0xA5; 3], "later bytes were touched");
    if number == 0 {
        return Ok(samples);
    }
    assert!(samples.iter().all(|&byte| byte == 0xA5));
    Err(number)
}

pub fn channels(file: &[u8]) -> Vec<Channel> {
    let summary = opened(file);
    let mut table = vec![0xA5; 48 * (file.len() / 2)];
    let mut row = vec![Channel::default(); summary.components as usize];
    assert_eq!(second::channels(file, &summary, &mut table, &mut row), 0);
    assert!(table.iter().all(|&byte| byte == 0), "the table is not zero");
    row
}

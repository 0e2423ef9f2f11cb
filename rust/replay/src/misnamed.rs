//! Chunks of other names than the map's: a frame in every way, the other chunks in some, and files in which several entries
//! count.

use crate::answer::CHANNEL_BYTES;
use crate::questions::in_table;
use crate::step::Step;
use sample::misnamed::{self, leading, Kind, CHUNKS, KINDS};
use sample::parts::{ATTRIBUTES, CALIBRATION, CHANNELS, EXPERIMENT};
use second::sheets::HEAD_BYTES;
use second::trees::ENTRY_BYTES;
use second::Summary;

const SOME: [Kind; 4] = [
    Kind::Neighbour,
    Kind::Longer,
    Kind::Shorter,
    Kind::DataLeaves,
];

const TABLE: usize = 20 * ENTRY_BYTES;
/// The bytes of a plane.
const PLANE: usize = 2;

pub fn all() -> Vec<Step> {
    let mut steps = Vec::new();
    for (chunk, i) in CHUNKS {
        let kinds = KINDS.iter();
        let kinds = kinds.filter(|(_, kind)| chunk == "frame" || SOME.contains(kind));
        for (label, kind) in kinds {
            let file = leading(i, *kind);
            let asked = asked(chunk, &file);
            steps.extend(in_table(&format!("{chunk}: {label}"), file));
            steps.extend(asked);
        }
    }
    let several = misnamed::several();
    steps.extend(
        several
            .into_iter()
            .flat_map(|(label, file)| frames(label, file)),
    );
    steps
}

/// The calls that come to a chunk, after the opening.
fn asked(chunk: &str, file: &[u8]) -> Vec<Step> {
    match chunk {
        "attributes" => needed(ATTRIBUTES, file),
        "experiment" => needed(EXPERIMENT, file),
        "calibration" => vec![tree(CALIBRATION), Step::Picometres { table: TABLE }],
        "channels" => vec![
            tree(CHANNELS),
            Step::Channels {
                table: TABLE,
                buffer: CHANNEL_BYTES,
            },
        ],
        _ => {
            let mut steps = plane(1);
            steps.push(Step::Register { buffer: 24 * 11 });
            steps
        }
    }
}

fn tree(name: &str) -> Step {
    Step::Tree {
        name: name.as_bytes().to_vec(),
        table: TABLE,
    }
}

/// The tree of a chunk that opening needs, by the summary that the file would have.
fn needed(name: &str, file: &[u8]) -> Vec<Step> {
    let good = misnamed::good().finish();
    let summary = second::calls::opened(&good, usize::MAX).unwrap_or_default();
    let map = second::map::place(file).unwrap_or_default();
    vec![
        border(0),
        Step::Summary(Summary { map, ..summary }),
        tree(name),
    ]
}

fn border(t: u64) -> Step {
    Step::Border {
        at: [0, t, 0, 0],
        table: TABLE,
        buffer: PLANE,
    }
}

/// A plane, as a sheet too, and by the border.
fn plane(t: u64) -> Vec<Step> {
    let at = [0, t, 0, 0];
    let buffer = HEAD_BYTES + PLANE;
    vec![
        Step::Plane { at, buffer: PLANE },
        Step::Sheet { at, buffer },
        border(t),
    ]
}

/// The three frames of a file, and its pixel size.
fn frames(label: &str, file: Vec<u8>) -> Vec<Step> {
    let mut steps = in_table(label, file);
    let at = [0, 1, 10].map(|t| [0, t, 0, 0]);
    steps.extend(at.map(|at| Step::Plane { at, buffer: PLANE }));
    steps.push(Step::Picometres { table: TABLE });
    steps
}

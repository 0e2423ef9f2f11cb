//! The questions about one file.

use crate::answer::CHANNEL_BYTES;
use crate::step::{Step, MOST_BYTES};
use plan::{Plan, TREES};
use sample::Rng;
use second::refusal::TABLE;
use second::sheets::HEAD_BYTES;
use second::trees::ENTRY_BYTES;
use second::{Channel, Summary};

/// Buffers of more bytes than this are asked with few.
const MOST_BUFFER: u128 = 8_192;
const FEW: usize = 24;
/// Rows of more records are asked with none.
const MOST_ROW: usize = 8;
/// The bytes of a table that nothing is written to.
const UNUSED: usize = 53;

/// The bytes of a table that has just the entries with which a call does not refuse for it. Where it needs none, the
/// table is one to be cleared all the same.
fn least(number: impl Fn(usize) -> u32) -> usize {
    match (0..).find(|&room| number(room) != TABLE) {
        Some(room) if room > 0 => ENTRY_BYTES * room,
        _ => UNUSED,
    }
}

fn for_open(file: &[u8]) -> usize {
    let opened = |room| second::calls::opened(file, room);
    least(|room| opened(room).err().unwrap_or(0))
}

fn for_tree(file: &[u8], summary: &Summary, name: &[u8]) -> usize {
    least(|room| second::tree(file, summary, name, &mut vec![0; ENTRY_BYTES * room]))
}

fn for_channels(file: &[u8], summary: &Summary, row: usize) -> usize {
    let row = vec![Channel::default(); row];
    let table = |room| vec![0; ENTRY_BYTES * room];
    least(|room| second::channels(file, summary, &mut table(room), &mut row.clone()))
}

pub fn for_picometres(file: &[u8], summary: &Summary) -> usize {
    least(|room| second::picometres(file, summary, &mut vec![0; ENTRY_BYTES * room]).0)
}

/// A label and a file, opened with a table that is just large enough, or one byte short of it.
fn opened(label: &str, file: Vec<u8>, spare: usize) -> Vec<Step> {
    let enough = for_open(&file);
    let mut steps = vec![Step::Label(label.to_string()), Step::File(file)];
    if enough != UNUSED {
        steps.push(Step::Open { table: enough - 1 });
    }
    steps.push(Step::Open {
        table: enough + spare,
    });
    steps
}

/// A file that opens: its planes are asked in the list.
pub fn about(label: &str, file: Vec<u8>) -> Vec<Step> {
    opened(label, file, 0)
}

/// A file that opens: its channels in a row that is just enough, in longer ones, and in one that is a byte short.
pub fn channels_of(label: &str, file: Vec<u8>) -> Vec<Step> {
    let summary = second::calls::opened(&file, usize::MAX).unwrap_or_default();
    let components = summary.components as usize;
    let table = for_channels(&file, &summary, components);
    let enough = CHANNEL_BYTES * components;
    let rows = [
        enough,
        enough + CHANNEL_BYTES,
        enough + 2 * CHANNEL_BYTES + 5,
        enough - 1,
    ];
    let mut steps = about(label, file);
    steps.extend(rows.map(|buffer| Step::Channels { table, buffer }));
    steps
}

/// A file opened with a table that is just large enough.
pub fn in_table(label: &str, file: Vec<u8>) -> Vec<Step> {
    let table = for_open(&file);
    let (label, file) = (Step::Label(label.to_string()), Step::File(file));
    vec![label, file, Step::Open { table }]
}

/// The same, and the file's channels, where it opens and has such a tree.
pub fn in_short(label: &str, file: Vec<u8>) -> Vec<Step> {
    let opened = second::calls::opened(&file, usize::MAX).ok();
    let told = opened.filter(|summary| second::calls::channel_root(&file, summary).is_ok());
    let channels = told.map(|summary| {
        let components = summary.components as usize;
        Step::Channels {
            table: for_channels(&file, &summary, components),
            buffer: CHANNEL_BYTES * components,
        }
    });
    let mut steps = in_table(label, file);
    steps.extend(channels);
    steps
}

/// The questions about a file, as a seed picks them; none where a table would be too large.
pub fn all(label: &str, seed: u64, file: Vec<u8>) -> Option<Vec<Step>> {
    let open = second::calls::opened(&file, usize::MAX);
    let rng = &mut Rng::new(!seed);
    let mut plan = Plan::new(rng, &file, &open);
    if plan.table > MOST_BYTES {
        return None;
    }
    let mut steps = opened(label, file.clone(), plan.spare);
    steps.push(border(rng, &file, &plan));
    if let Ok(map) = second::map::place(&file) {
        plan.map_at(map);
        steps.extend(with_map(rng, &file, &plan));
    }
    steps.extend(wild(rng, &plan));
    Some(steps)
}

/// The calls that take a summary: the opening's, or one that only serves to ask, and then one that no opening gave.
fn with_map(rng: &mut Rng, file: &[u8], plan: &Plan) -> Vec<Step> {
    let mut steps = Vec::new();
    if !plan.opened {
        steps.push(Step::Summary(plan.summary));
    }
    steps.extend(planes(plan));
    steps.extend(sheets(plan));
    steps.extend(trees(rng, file, plan));
    steps.extend(channels(rng, file, plan));
    steps.extend(registers(&plan.summary, plan.spare));
    steps.extend(picometres(file, &plan.summary));
    for &summary in &plan.strange {
        steps.push(Step::Summary(summary));
        steps.extend(any(summary));
        steps.push(any_sheet());
        steps.push(any_picometres());
    }
    steps
}

/// The pixel size with a table that is just enough, and with one that has a byte less.
fn picometres(file: &[u8], summary: &Summary) -> Vec<Step> {
    let enough = for_picometres(file, summary);
    let mut steps = vec![Step::Picometres { table: enough }];
    if enough != UNUSED {
        steps.push(Step::Picometres { table: enough - 1 });
    }
    steps
}

/// As many bytes as an answer has, where these are few.
fn needed(bytes: Option<u128>) -> usize {
    bytes
        .filter(|&n| n <= MOST_BUFFER)
        .map_or(FEW, |n| n as usize)
}

/// Planes with a buffer that is long, just enough and one byte short, and one that is out of range.
fn planes(plan: &Plan) -> Vec<Step> {
    let enough = needed(plan.summary.attributes().plane_bytes());
    let buffers = [enough + plan.spare, enough, enough - 1, enough + 7];
    let first = [[0; 4]];
    let planes = if plan.opened {
        &plan.planes[..]
    } else {
        &first
    };
    let asked = planes.iter().zip(buffers);
    asked
        .map(|(&at, buffer)| Step::Plane { at, buffer })
        .collect()
}

/// The first plane as a sheet, and another: with a buffer that is just enough, one byte short, or out of range.
fn sheets(plan: &Plan) -> Vec<Step> {
    let enough = HEAD_BYTES + needed(plan.summary.attributes().plane_bytes());
    let mut steps = vec![Step::Sheet {
        at: [0; 4],
        buffer: enough + plan.spare,
    }];
    let others = plan.planes.iter().skip(1);
    let mut others = others.zip([enough, enough - 1, enough + 7]);
    let other = others.nth(plan.room % 3);
    steps.extend(other.map(|(&at, buffer)| Step::Sheet { at, buffer }));
    steps
}

/// A plane by the border, with a table and a buffer that may be just too short.
fn border(rng: &mut Rng, file: &[u8], plan: &Plan) -> Step {
    let enough = needed(plan.summary.attributes().plane_bytes());
    let short = rng.one_in(4) as usize;
    let at = match plan.planes.len() {
        0 => [0; 4],
        n => plan.planes[rng.place(n)],
    };
    Step::Border {
        at,
        table: for_open(file) - short,
        buffer: rng.pick(&[enough, enough, enough - 1, enough + plan.spare]),
    }
}

/// Two trees, with a table that is just enough, or long, and with one that has a byte less.
fn trees(rng: &mut Rng, file: &[u8], plan: &Plan) -> Vec<Step> {
    let mut steps = Vec::new();
    for spare in [0, 60] {
        let name = tree_name(rng);
        let enough = for_tree(file, &plan.summary, &name);
        steps.push(Step::Tree {
            name: name.clone(),
            table: enough + spare,
        });
        if enough != UNUSED && spare == 0 {
            steps.push(Step::Tree {
                name,
                table: enough - 1,
            });
        }
    }
    steps
}

/// The usual names, and now and then a frame's, one without its mark, or none at all.
fn tree_name(rng: &mut Rng) -> Vec<u8> {
    let odd = ["ImageDataSeq|0!", "ImageAttributesLV", ""];
    let name = if rng.one_in(8) {
        rng.pick(&odd)
    } else {
        rng.pick(&TREES)
    };
    name.as_bytes().to_vec()
}

/// Channels with a row that is long or just enough, and with a row or a table that is too short.
fn channels(rng: &mut Rng, file: &[u8], plan: &Plan) -> Vec<Step> {
    let components = plan.summary.components as usize;
    if components > MOST_ROW {
        return vec![Step::Channels {
            table: UNUSED,
            buffer: FEW,
        }];
    }
    let table = for_channels(file, &plan.summary, components);
    let enough = CHANNEL_BYTES * components;
    let buffer = enough + rng.pick(&[0, 5, 2 * CHANNEL_BYTES]);
    let short = if rng.one_in(2) || table == UNUSED {
        Step::Channels {
            table,
            buffer: enough - 1,
        }
    } else {
        Step::Channels {
            table: table - 1,
            buffer,
        }
    };
    vec![Step::Channels { table, buffer }, short]
}

/// The register with a buffer that is just enough, or long, and with one that is a byte short.
fn registers(summary: &Summary, spare: usize) -> Vec<Step> {
    let enough = needed(summary.frames().checked_mul(24));
    let buffers = [enough + spare, enough - 1];
    buffers.map(|buffer| Step::Register { buffer }).to_vec()
}

/// Each call that takes a summary, of which nothing is known.
fn any(summary: Summary) -> [Step; 4] {
    [
        Step::Plane {
            at: [0; 4],
            buffer: 200,
        },
        Step::Tree {
            name: TREES[1].as_bytes().to_vec(),
            table: 10 * ENTRY_BYTES,
        },
        Step::Channels {
            table: 20 * ENTRY_BYTES,
            buffer: CHANNEL_BYTES * summary.components.min(2) as usize,
        },
        Step::Register { buffer: 24 * 30 },
    ]
}

/// A sheet by a summary of which nothing is known.
fn any_sheet() -> Step {
    Step::Sheet {
        at: [0; 4],
        buffer: HEAD_BYTES + 200,
    }
}

/// A pixel size by a summary of which nothing is known.
fn any_picometres() -> Step {
    Step::Picometres {
        table: 20 * ENTRY_BYTES,
    }
}

/// One of these, a sheet and a pixel size, with a summary that is refused.
fn wild(rng: &mut Rng, plan: &Plan) -> Vec<Step> {
    let Some(&summary) = plan.wild.first() else {
        return Vec::new();
    };
    let one = rng.pick(&[0, 1, 2, 3]);
    let call = any(summary).into_iter().nth(one);
    let mut steps = vec![Step::Summary(summary)];
    steps.extend(call);
    steps.extend([any_sheet(), any_picometres()]);
    steps
}

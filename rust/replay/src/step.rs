//! How a list is stored: one step after the other, all numbers little-endian.
//!
//! | bytes | |
//! |---|---|
//! | u32 | the kind, from 1 in the order of `Step` |
//! | u32 | the bytes that follow the step |
//! | u32 | the bytes that are lent as a table |
//! | u32 | the bytes that are lent as samples, as a register, as a row of channels or as a sheet |
//! | u64 × 4 | scene, t, c and z |
//! | | what follows: a label's text, a file, a summary, a tree's name, a sheet that is read |
//!
//! A summary is 14 u64: axis (0 T, 1 Z, 2 P) and count of each loop, depth, width, row bytes, height, components, bits,
//! the map data's position and length; it has no calibration. A file, or what is lent, has at most 65,536 bytes.

use second::bytes::{u32_at, u64_at};
use second::{Axis, Loop, Range, Summary};

pub const MOST_BYTES: usize = 65_536;

/// A label is a line of its own. A file and a summary are what later questions are about; an opening's summary, too.
#[derive(Clone, Debug)]
pub enum Step {
    Label(String),
    File(Vec<u8>),
    Summary(Summary),
    Open {
        table: usize,
    },
    Plane {
        at: [u64; 4],
        buffer: usize,
    },
    Tree {
        name: Vec<u8>,
        table: usize,
    },
    Register {
        buffer: usize,
    },
    Border {
        at: [u64; 4],
        table: usize,
        buffer: usize,
    },
    Channels {
        table: usize,
        buffer: usize,
    },
    Sheet {
        at: [u64; 4],
        buffer: usize,
    },
    ReadSheet {
        sheet: Vec<u8>,
        buffer: usize,
    },
    Picometres {
        table: usize,
    },
}

/// The numbers before what follows a step.
struct Head {
    kind: u32,
    table: usize,
    buffer: usize,
    at: [u64; 4],
}

const HEAD_BYTES: usize = 48;
const AXES: [Axis; 3] = [Axis::T, Axis::Z, Axis::P];

fn axis_number(axis: Axis) -> u64 {
    match axis {
        Axis::T => 0,
        Axis::Z => 1,
        Axis::P => 2,
    }
}

/// A summary's numbers but for its calibration.
pub fn numbers(s: &Summary) -> Vec<u64> {
    let loops = s.loops.iter().flat_map(|l| [axis_number(l.axis), l.count]);
    let sizes = [s.depth, s.width, s.stride, s.height, s.components, s.bits];
    loops.chain(sizes).chain([s.map.start, s.map.len]).collect()
}

/// The summary of so many numbers.
fn summary(bytes: &[u8]) -> Option<Summary> {
    let numbers: Vec<u64> = bytes.chunks_exact(8).filter_map(|n| u64_at(n, 0)).collect();
    let [a, i, b, j, c, k, depth, width, stride, height, components, bits, start, len] =
        <[u64; 14]>::try_from(numbers).ok()?;
    let mut loops = [Loop::default(); 3];
    for (place, (axis, count)) in loops.iter_mut().zip([(a, i), (b, j), (c, k)]) {
        let axis = *AXES.get(axis as usize)?;
        *place = Loop { axis, count };
    }
    Some(Summary {
        loops,
        depth,
        width,
        stride,
        height,
        components,
        bits,
        map: Range { start, len },
        ..Summary::default()
    })
}

impl Head {
    fn read(bytes: &[u8]) -> Option<Head> {
        Some(Head {
            kind: u32_at(bytes, 0)?,
            table: u32_at(bytes, 8)? as usize,
            buffer: u32_at(bytes, 12)? as usize,
            at: [
                u64_at(bytes, 16)?,
                u64_at(bytes, 24)?,
                u64_at(bytes, 32)?,
                u64_at(bytes, 40)?,
            ],
        })
    }
}

/// The steps of a stored list; `None` where it is not one.
pub fn read(list: &[u8]) -> Option<Vec<Step>> {
    let mut steps = Vec::new();
    let mut left = list;
    while !left.is_empty() {
        let size = u32_at(left, 4)? as usize;
        let rest = left.get(HEAD_BYTES..HEAD_BYTES + size)?;
        steps.push(Step::read(Head::read(left)?, rest)?);
        left = &left[HEAD_BYTES + size..];
    }
    Some(steps)
}

impl Step {
    fn read(head: Head, rest: &[u8]) -> Option<Step> {
        let Head {
            table, buffer, at, ..
        } = head;
        let rest = rest.to_vec();
        Some(match head.kind {
            1 => Step::Label(String::from_utf8(rest).ok()?),
            2 => Step::File(rest),
            3 => Step::Summary(summary(&rest)?),
            4 => Step::Open { table },
            5 => Step::Plane { at, buffer },
            6 => Step::Tree { name: rest, table },
            7 => Step::Register { buffer },
            8 => Step::Border { at, table, buffer },
            9 => Step::Channels { table, buffer },
            10 => Step::Sheet { at, buffer },
            11 => Step::ReadSheet {
                sheet: rest,
                buffer,
            },
            12 => Step::Picometres { table },
            _ => return None,
        })
    }

    fn head(&self) -> Head {
        let (kind, table, buffer, at) = match *self {
            Step::Label(_) => (1, 0, 0, [0; 4]),
            Step::File(_) => (2, 0, 0, [0; 4]),
            Step::Summary(_) => (3, 0, 0, [0; 4]),
            Step::Open { table } => (4, table, 0, [0; 4]),
            Step::Plane { at, buffer } => (5, 0, buffer, at),
            Step::Tree { table, .. } => (6, table, 0, [0; 4]),
            Step::Register { buffer } => (7, 0, buffer, [0; 4]),
            Step::Border { at, table, buffer } => (8, table, buffer, at),
            Step::Channels { table, buffer } => (9, table, buffer, [0; 4]),
            Step::Sheet { at, buffer } => (10, 0, buffer, at),
            Step::ReadSheet { buffer, .. } => (11, 0, buffer, [0; 4]),
            Step::Picometres { table } => (12, table, 0, [0; 4]),
        };
        Head {
            kind,
            table,
            buffer,
            at,
        }
    }

    /// What follows the step.
    fn rest(&self) -> Vec<u8> {
        match self {
            Step::Label(text) => text.as_bytes().to_vec(),
            Step::File(bytes) => bytes.clone(),
            Step::Summary(s) => numbers(s).into_iter().flat_map(u64::to_le_bytes).collect(),
            Step::Tree { name, .. } => name.clone(),
            Step::ReadSheet { sheet, .. } => sheet.clone(),
            _ => Vec::new(),
        }
    }

    pub fn write(&self, out: &mut Vec<u8>) {
        let head = self.head();
        let rest = self.rest();
        for n in [rest.len(), head.table, head.buffer] {
            assert!(n <= MOST_BYTES, "a step of {n} bytes");
        }
        out.extend_from_slice(&head.kind.to_le_bytes());
        for n in [rest.len(), head.table, head.buffer] {
            out.extend_from_slice(&(n as u32).to_le_bytes());
        }
        out.extend(head.at.into_iter().flat_map(u64::to_le_bytes));
        out.extend_from_slice(&rest);
    }
}

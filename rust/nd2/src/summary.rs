//! What opening a file tells of it.

use crate::bytes::{f32_at, u64_at};
use crate::raw::{SHEET_HEAD_BYTES, SUMMARY_BYTES};

/// What a loop runs over.
#[derive(Clone, Copy, Debug, PartialEq, Eq, Hash)]
pub enum Axis {
    /// Time.
    T,
    /// Focus.
    Z,
    /// Points, each a scene of its own.
    P,
}

/// One loop of the experiment.
#[derive(Clone, Copy, Debug, PartialEq, Eq, Hash)]
pub struct Loop {
    /// What it runs over.
    pub axis: Axis,
    /// How many values it has, 1 to 1,000,000.
    pub count: u64,
}

/// What the file says of its calibration.
#[derive(Clone, Copy, Debug, PartialEq, Eq, Hash)]
pub enum State {
    /// Nothing.
    Unstated,
    /// The size of a pixel.
    Stated,
    /// Something, in a packed tree, which is not read.
    Packed,
}

/// The distance of two focus steps in micrometres.
#[derive(Clone, Copy, Debug, PartialEq)]
pub enum ZStep {
    /// There is none.
    Unstated,
    /// It is from 1e-6 to 1e3.
    Stated(f32),
    /// It is below 1e-6, and not used.
    Smaller,
    /// It is above 1e3, and not used.
    Larger,
}

/// What opening a file tells of it: sizes, loops and calibration.
#[derive(Clone, Debug, PartialEq)]
pub struct Summary {
    /// The loops, the outermost first, at most one of each axis.
    pub loops: Vec<Loop>,
    /// Samples of one component in a row.
    pub width: u64,
    /// Rows.
    pub height: u64,
    /// Components of each frame.
    pub components: u64,
    /// Bits of a sample: 8, 16 or 32.
    pub bits: u64,
    /// Bytes from one row to the next in the file.
    pub row_bytes: u64,
    /// What the file says of its calibration.
    pub state: State,
    /// Micrometres per pixel, across and down, where they are stated.
    /// [`Reader::picometres`](crate::Reader::picometres) is the same size as a whole number.
    pub pixel_size: Option<(f32, f32)>,
    /// The distance of two focus steps.
    pub z_step: ZStep,
    /// Where the map's data begins in the file.
    pub map_start: u64,
    /// The bytes of the map's data.
    pub map_len: u64,
}

fn axis(number: u64) -> Axis {
    match number {
        0 => Axis::T,
        1 => Axis::Z,
        _ => Axis::P,
    }
}

fn state(number: u64) -> State {
    match number {
        1 => State::Stated,
        2 => State::Packed,
        _ => State::Unstated,
    }
}

fn z_step(class: u64, step: f32) -> ZStep {
    match class {
        1 => ZStep::Stated(step),
        2 => ZStep::Smaller,
        3 => ZStep::Larger,
        _ => ZStep::Unstated,
    }
}

impl Summary {
    /// What the bytes of a summary say.
    pub(crate) fn read(laid: &[u8; SUMMARY_BYTES]) -> Summary {
        let word = |i: usize| u64_at(laid, 8 * i);
        let one = |i: usize| Loop {
            axis: axis(word(2 * i)),
            count: word(2 * i + 1),
        };
        let state = state(word(14));
        let size = (f32_at(laid, 128), f32_at(laid, 132));
        Summary {
            loops: (0..word(6).min(3) as usize).map(one).collect(),
            width: word(7),
            row_bytes: word(8),
            height: word(9),
            components: word(10),
            bits: word(11),
            map_start: word(12),
            map_len: word(13),
            state,
            pixel_size: (state == State::Stated).then_some(size),
            z_step: z_step(word(15), f32_at(laid, 136)),
        }
    }

    /// How many values an axis has: 1 where no loop runs over it.
    pub fn count(&self, axis: Axis) -> u64 {
        let found = self.loops.iter().find(|one| one.axis == axis);
        found.map_or(1, |one| one.count)
    }

    /// How many scenes there are, one for each point.
    pub fn scenes(&self) -> u64 {
        self.count(Axis::P)
    }

    /// How many times.
    pub fn times(&self) -> u64 {
        self.count(Axis::T)
    }

    /// How many focus steps.
    pub fn steps(&self) -> u64 {
        self.count(Axis::Z)
    }

    /// How many frames the loops make. Not all of them need be in the file.
    pub fn frames(&self) -> u64 {
        let counts = self.loops.iter().map(|one| one.count);
        counts.fold(1, u64::saturating_mul)
    }

    /// The index of an axis in the frame of a number; 0 where no loop runs over it.
    pub(crate) fn index(&self, axis: Axis, number: u64) -> u64 {
        let mut inner = 1u64;
        for one in self.loops.iter().rev() {
            if one.axis == axis {
                return number / inner.max(1) % one.count.max(1);
            }
            inner = inner.saturating_mul(one.count);
        }
        0
    }

    /// How many planes: one for each component of each frame; 2^64 - 1 where they are more.
    pub fn planes(&self) -> u64 {
        self.frames().saturating_mul(self.components)
    }

    /// The bytes of a plane.
    pub fn plane_bytes(&self) -> u64 {
        let samples = self.width.saturating_mul(self.height);
        samples.saturating_mul(self.bits / 8)
    }

    /// The bytes of a plane's sheet.
    pub fn sheet_bytes(&self) -> u64 {
        self.plane_bytes().saturating_add(SHEET_HEAD_BYTES as u64)
    }
}

#[cfg(test)]
mod tests {
    use super::*;

    fn laid(words: &[(usize, u64)]) -> [u8; SUMMARY_BYTES] {
        let mut bytes = [0; SUMMARY_BYTES];
        for (i, word) in words {
            bytes[8 * i..8 * i + 8].copy_from_slice(&word.to_le_bytes());
        }
        bytes
    }

    #[test]
    fn loops_are_read_in_order() {
        let summary = Summary::read(&laid(&[(0, 2), (1, 24), (2, 1), (3, 11), (6, 2)]));
        let loops: Vec<(Axis, u64)> = summary.loops.iter().map(|l| (l.axis, l.count)).collect();
        assert_eq!(loops, [(Axis::P, 24), (Axis::Z, 11)]);
        assert_eq!(
            (summary.scenes(), summary.times(), summary.steps()),
            (24, 1, 11)
        );
        assert_eq!(summary.frames(), 264);
    }

    #[test]
    fn a_depth_past_three_and_counts_past_all_limits_do_not_panic() {
        let most = u64::MAX;
        let summary = Summary::read(&laid(&[
            (1, most),
            (3, most),
            (6, most),
            (7, most),
            (9, most),
            (11, 32),
        ]));
        assert_eq!(summary.loops.len(), 3);
        assert_eq!((summary.frames(), summary.plane_bytes()), (0, most));
        assert_eq!(summary.sheet_bytes(), most);
    }

    #[test]
    fn calibration_is_told_where_it_is_stated() {
        let mut bytes = laid(&[(14, 1), (15, 1)]);
        bytes[128..140].copy_from_slice(&[0.325f32, 0.325, 0.5].map(f32::to_le_bytes).concat());
        let summary = Summary::read(&bytes);
        assert_eq!(summary.pixel_size, Some((0.325, 0.325)));
        assert_eq!(summary.z_step, ZStep::Stated(0.5));
        let packed = Summary::read(&laid(&[(14, 2)]));
        assert_eq!((packed.state, packed.pixel_size), (State::Packed, None));
    }
}

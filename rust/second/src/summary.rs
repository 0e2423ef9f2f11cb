//! Document 01, The calls: the summary. With it, whether it may be used (20), and the frame numbers that its loops give
//! (Loops).

use crate::attributes::Attributes;
use crate::calibration::Calibration;
use crate::types::{Axis, Loop, Range};

const MOST_COUNT: u64 = 1_000_000;

/// What opening tells of a file. Of `loops`, the outermost first, `depth` are used; the others are T with count 0.
#[derive(Clone, Copy, Debug, Default, PartialEq)]
pub struct Summary {
    pub loops: [Loop; 3],
    pub depth: u64,
    pub width: u64,
    pub stride: u64,
    pub height: u64,
    pub components: u64,
    pub bits: u64,
    pub map: Range,
    pub calibration: u64,
    pub x: f32,
    pub y: f32,
    pub class: u64,
    pub z: f32,
}

impl Summary {
    /// `loops` are at most three, since no axis repeats.
    pub fn new(map: Range, a: Attributes, loops: &[Loop], c: Calibration) -> Summary {
        let mut kept = [Loop::default(); 3];
        for (place, one) in kept.iter_mut().zip(loops) {
            *place = *one;
        }
        Summary {
            loops: kept,
            depth: loops.len() as u64,
            width: a.width,
            stride: a.stride,
            height: a.height,
            components: a.components,
            bits: a.bits,
            map,
            calibration: c.state,
            x: c.size,
            y: c.size,
            class: c.class,
            z: c.z,
        }
    }

    pub fn attributes(&self) -> Attributes {
        Attributes {
            width: self.width,
            stride: self.stride,
            height: self.height,
            components: self.components,
            bits: self.bits,
        }
    }

    /// The loops that are used, all three where `depth` says more.
    pub fn used(&self) -> &[Loop] {
        &self.loops[..self.depth.min(3) as usize]
    }

    /// How many values an axis has: 1 where no loop runs over it.
    pub fn count(&self, axis: Axis) -> u64 {
        let found = self.used().iter().find(|l| l.axis == axis);
        found.map_or(1, |l| l.count)
    }

    /// The frame number of a point: 0 to begin with, then n × count + index for each loop, from the outside in.
    pub fn frame(&self, scene: u64, t: u64, z: u64) -> u128 {
        let index = |axis| match axis {
            Axis::T => t,
            Axis::Z => z,
            Axis::P => scene,
        };
        let step = |n: u128, l: &Loop| n * l.count as u128 + index(l.axis) as u128;
        self.used().iter().fold(0, step)
    }

    /// How many frame numbers there are.
    pub fn frames(&self) -> u128 {
        self.used().iter().map(|l| l.count as u128).product()
    }

    /// The index on an axis that frame n has: the last loop runs fastest.
    pub fn index(&self, axis: Axis, n: u128) -> u64 {
        let mut rest = n;
        for one in self.used().iter().rev() {
            let count = one.count as u128;
            if one.axis == axis {
                return (rest % count) as u64;
            }
            rest /= count;
        }
        0
    }

    /// Whether 20 does not hold: shape, bits, loops and map range.
    pub fn sound(&self, file: &[u8]) -> bool {
        let a = self.attributes();
        let map_end = self.map.start as u128 + self.map.len as u128;
        a.bits_known()
            && a.shape_holds()
            && a.plane_holds()
            && self.loops_sound()
            && map_end <= file.len() as u128
    }

    /// Whether no more than three loops are used, and none of them has the count 0, one over 1,000,000, or the axis of
    /// another.
    fn loops_sound(&self) -> bool {
        if self.depth > 3 {
            return false;
        }
        let used = self.used();
        let counts = used.iter().all(|l| (1..=MOST_COUNT).contains(&l.count));
        let repeats = |i: usize| used[..i].iter().any(|l| l.axis == used[i].axis);
        counts && !(0..used.len()).any(repeats)
    }
}

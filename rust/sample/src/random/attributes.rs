//! Random sizes of a frame.

use super::numbers::field;
use super::Care;
use crate::parts::Sizes;
use crate::rng::Rng;
use crate::tree::{level, u32, Record};

/// Sizes around the limits that document 01 sets: a plane's ceiling and the products past 2^64 − 1.
const LARGE: [(u64, u64, u64, u64, u64); 17] = [
    (65_536, 65_536, 65_536, 1, 8),
    (65_537, 65_537, 65_536, 1, 8),
    (65_536, 65_537, 65_537, 1, 8),
    (641, 641, 6_700_417, 1, 8),
    ((1 << 32) + 1, u64::MAX, (1 << 32) - 1, 1, 8),
    (u64::MAX, u64::MAX, 1, 1, 8),
    (1 << 31, 1 << 32, 1, 1, 16),
    (1 << 32, 1 << 33, 1, 1, 16),
    (1 << 30, 1 << 32, 1, 1, 32),
    (1 << 33, u64::MAX, 1 << 31, 1, 8),
    ((1 << 33) - 1, u64::MAX, 1 << 31, 1, 8),
    (1 << 62, u64::MAX, 1, 1, 32),
    ((1 << 62) - 1, u64::MAX, 1, 1, 32),
    (1 << 54, u64::MAX, 1, 1024, 8),
    ((1 << 54) - 1, u64::MAX, 1, 1024, 8),
    (1, 1 << 63, 4, 1, 8),
    (2, u64::MAX, 2, 1, 8),
];

fn sizes(rng: &mut Rng) -> Sizes {
    if rng.one_in(12) {
        let (width, stride, height, components, bits) = rng.pick(&LARGE);
        return Sizes {
            width,
            stride,
            height,
            components,
            bits,
        };
    }
    let components = rng.pick(&[1, 1, 1, 2, 2, 3, 4]);
    let bits = rng.pick(&[8, 16, 16, 32]);
    let mut sizes = Sizes::packed(rng.between(1, 5), rng.between(1, 4), components, bits);
    sizes.stride += rng.pick(&[0, 0, 0, 1, 2, 5]);
    sizes
}

/// Sizes that break a rule, and the rules' edges.
fn spoiled(rng: &mut Rng, mut sizes: Sizes) -> Sizes {
    match rng.below(8) {
        0 => sizes.width = 0,
        1 => sizes.height = 0,
        2 => sizes.components = rng.pick(&[0, 1024, 1025, 1 << 40]),
        3 => sizes.bits = rng.pick(&[0, 1, 9, 24, 64, 1 << 32, (1 << 32) + 8]),
        4 => sizes.stride = sizes.stride.saturating_sub(rng.between(1, 6)),
        5 => sizes.width = rng.pick(&[u64::MAX, 1 << 63, 1 << 62]),
        6 => sizes.height = rng.pick(&[u64::MAX, 1 << 63, 1 << 62]),
        _ => sizes.stride = rng.pick(&[0, u64::MAX, 1 << 63]),
    }
    sizes
}

/// The sizes and the tree that states them, more or less.
pub fn random(rng: &mut Rng, care: Care) -> (Sizes, Record) {
    let mut sizes = sizes(rng);
    let oddness = if care == Care::Good { 0 } else { 40 };
    if care != Care::Good && rng.one_in(5) {
        sizes = spoiled(rng, sizes);
    }
    let mut records = vec![
        field(rng, "uiWidth", sizes.width, oddness),
        field(rng, "uiWidthBytes", sizes.stride, oddness),
        field(rng, "uiHeight", sizes.height, oddness),
        field(rng, "uiComp", sizes.components, oddness),
        field(rng, "uiBpcInMemory", sizes.bits, oddness),
        field(rng, "eCompression", 2, oddness.min(12)),
    ];
    if rng.one_in(4) {
        let more = rng.pick(&["uiBpcSignificant", "uiVirtualComponents", "uiSequenceCount"]);
        records.push(u32(more, rng.word() as u32));
    }
    if rng.one_in(4) {
        let at = rng.place(records.len());
        records.rotate_left(at);
    }
    (sizes, level("SLxImageAttributes", records))
}

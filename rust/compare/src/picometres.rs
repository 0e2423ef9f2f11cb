//! The pixel size in picometres: asked with tables that suffice and with few entries, held against the reader's own
//! tree of the calibration, and against the pixel size of the original, which has none in picometres.

use crate::answers::{Answers, Asking};
use crate::check::Check;
use second::refusal::{MISSING, SIZE_RANGE};

/// A number and the picometres.
pub type Size = (u32, u64);

/// Where the calibration is among the trees that are asked.
const CALIBRATION: usize = 2;

const TWO_64: f64 = 18_446_744_073_709_551_616.0;
/// An f32 is off by at most half of this part of what it is nearest to, unless that is below all normal f32.
const ULP: f64 = 1.0 / 8_388_608.0;

impl Asking<'_> {
    /// The tree is read before the size is looked for, so that all of its refusals are this call's; with each table in
    /// which it has room the size is the same.
    pub fn picometres(&mut self) {
        let summary = &self.plan.summary;
        let whole = self.sized(summary, self.plan.table, "picometres");
        let small = self.sized(summary, self.small_room(), "picometres, small table");
        let trees = [&self.answers.trees, &self.answers.small_trees];
        let trees = trees.map(|trees| trees[CALIBRATION].number);
        let right = follows(whole, trees[0]) && follows(small, trees[1]);
        self.fault(right, "picometres: another number than the tree's");
        let right = trees != [0, 0] || small == whole;
        self.fault(right, "picometres: another size with a small table");
        self.answers.picometres = whole;
        self.answers.small_picometres = small;
    }
}

/// Whether a size can be answered where the tree call for the calibration gives this number.
fn follows(size: Size, tree: u32) -> bool {
    match tree {
        0 => [0, MISSING, SIZE_RANGE].contains(&size.0),
        refused => size.0 == refused,
    }
}

impl Answers {
    /// The calls for a pixel size, and whether other answers are these.
    pub fn same_picometres(&self, other: &Answers) -> [(&'static str, bool); 2] {
        [
            ("picometres", self.picometres == other.picometres),
            (
                "picometres, small table",
                self.small_picometres == other.small_picometres,
            ),
        ]
    }
}

impl Check<'_> {
    /// Where the original opens a file, it has a pixel size just where the number here is 0 or 28, and both tell the
    /// same size as far as an f32 does (`agrees`).
    pub fn picometres(&mut self) {
        let (true, Ok(opened)) = (self.plan.opened, &self.original.open) else {
            return;
        };
        let ours = self.answers.picometres;
        let theirs = opened.size.map(|(x, ..)| f32::from_bits(x));
        let right = match (ours, theirs) {
            ((0, picometres), Some(x)) => agrees(picometres, x),
            ((SIZE_RANGE, _), Some(x)) => passes(x),
            (_, theirs) => theirs.is_none() && ![0, SIZE_RANGE].contains(&ours.0),
        };
        if !right {
            self.findings.unlisted.push(format!(
                "picometres: {ours:?}, the original's pixel size: {theirs:?}"
            ));
        }
        self.findings.size = Some(ours.0);
    }
}

/// Whether a whole number of picometres and an f32 of micrometres can be of one size. x is the f32 nearest to the
/// file's double, so it is at most ULP / 2 of itself away from that, and the whole number at most half a picometre.
/// ULP / 2 more is left for what is rounded in this sum, which is far less. Below all normal f32 both are next to 0.
fn agrees(picometres: u64, x: f32) -> bool {
    let stated = f64::from(x) * 1e6;
    x.is_finite() && (picometres as f64 - stated).abs() <= 0.5 + stated * ULP
}

/// Whether a pixel size of 2^64 picometres or more can be this f32 of micrometres.
fn passes(x: f32) -> bool {
    f64::from(x) * 1e6 >= TWO_64 * (1.0 - ULP)
}

#[cfg(test)]
mod tests {
    use super::*;
    use second::picometres::rounded;
    use second::values::Value;

    #[test]
    fn sizes_that_agree() {
        let rng = &mut sample::Rng::new(1);
        for _ in 0..20_000 {
            let size = f64::from_bits(sample::pixel::random(rng));
            match rounded(&Value::Double(size)) {
                Ok(picometres) => assert!(agrees(picometres, size as f32), "{size:e}"),
                Err(SIZE_RANGE) => assert!(passes(size as f32), "{size:e}"),
                Err(_) => {}
            }
        }
    }

    #[test]
    fn sizes_that_do_not() {
        for (picometres, x) in [
            (325_001, 0.325),
            (324_999, 0.325),
            (1, 1e-7),
            (0, 1e-6),
            (1_000, 1.0),
            (u64::MAX, f32::INFINITY),
            (17_592_186_044_416_000_000, 1.0),
        ] {
            assert!(!agrees(picometres, x), "{picometres} {x}");
        }
        assert!(!passes(0.325) && !passes(1.8e13) && !passes(f32::NAN));
        assert!(passes(1.9e13) && passes(f32::INFINITY) && agrees(325_000, 0.325));
    }
}

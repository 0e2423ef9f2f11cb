//! Planes of files of one frame.

use crate::cases::{components, copying, row_starts, Case};
use crate::files;
use crate::gather::GATHER;
use crate::original::Original;
use crate::table::{Row, Target};
use crate::timing::{race_after, race_in_a_row, Best, Turns, Who};
use sample::parts::Sizes;
use std::hint::black_box;

/// Bytes behind the samples of a padded row.
const PADDING: u64 = 12;
/// Bytes of samples that a padded row has at least, and of one that is no whole number of blocks.
const PADDED_ROWS: [u64; 2] = [1024, 1092];

/// 1 component, the same with padded rows, 2 and 3 components; each with 8, 16 and 32 bits.
pub fn sizes(side: u64) -> Vec<Sizes> {
    let packed = |components| [8, 16, 32].map(|bits| Sizes::packed(side, side, components, bits));
    let padded = [8, 16, 32].map(|bits| padded(side, bits));
    let several = [packed(2), packed(3)].concat();
    [packed(1).to_vec(), padded.concat(), several].concat()
}

/// Padded rows: the short ones, and where they are longer those of so many samples.
fn padded(side: u64, bits: u64) -> Vec<Sizes> {
    let short = PADDED_ROWS.map(|bytes| bytes * 8 / bits);
    let long = Some(side).filter(|side| short.iter().all(|width| side > width));
    let sizes = short.into_iter().chain(long).map(|width| {
        let packed = Sizes::packed(width, side, 1, bits);
        let stride = packed.stride + PADDING;
        Sizes { stride, ..packed }
    });
    sizes.collect()
}

fn is_padded(sizes: Sizes) -> bool {
    sizes.stride > sizes.width * sizes.components * sizes.bits / 8
}

/// Of one component the plane may be judged by memcpy, of several by the gather and of three by the original too.
fn targets(sizes: Sizes) -> Vec<Target> {
    let gather = Target::new(Who::Gather, 1.2);
    match (sizes.components, sizes.bits) {
        (1, _) if is_padded(sizes) => vec![Target::new(Who::Memcpy, 1.1)],
        (1, 16) => vec![Target::new(Who::Memcpy, 1.15)],
        (1, _) => vec![],
        (2, _) => vec![gather],
        _ => vec![gather, Target::new(Who::Original, 0.5)],
    }
}

fn label(sizes: Sizes) -> String {
    let of = format!(
        "plane, {} of {} bits",
        components(sizes.components),
        sizes.bits
    );
    match is_padded(sizes) {
        true => format!("{of}, padded rows of {}", sizes.stride - PADDING),
        false => of,
    }
}

/// A file of one frame, of which the last component is read.
struct Frame<'f> {
    case: &'f Case<'f>,
    sizes: Sizes,
    /// The rows, with their padding.
    rows: &'f [u8],
}

impl Frame<'_> {
    fn turns(&self) -> Turns<'_> {
        let last = self.sizes.components - 1;
        let source = &self.rows[..self.case.plane_bytes()];
        let turns = self.case.plane([0, 0, last, 0], source);
        turns.and_if(Who::Gather, self.gather(last))
    }

    /// The gather of several components, which has to give the same samples.
    fn gather(&self, component: u64) -> Option<impl FnMut() + '_> {
        let gather = GATHER.filter(|_| self.sizes.components > 1)?;
        let agreed = self.case.agreed_plane([0, 0, component, 0]);
        let mut samples = vec![1; agreed.len()];
        gather(self.rows, self.sizes, component, &mut samples);
        assert!(agreed == samples, "the gather has another plane");
        Some(move || gather(self.rows, self.sizes, component, black_box(&mut samples)))
    }

    fn row(&self, how: &str, best: Best) -> Row {
        Row {
            what: label(self.sizes) + how,
            bytes: self.case.plane_bytes(),
            best,
            targets: targets(self.sizes),
        }
    }

    /// By turns; where memcpy is the target also with the plane's bytes in the cache, so that it is judged both ways.
    fn one_component(&self, repetitions: u32) -> Vec<Row> {
        let row = |in_a_row, how| {
            let best = race_in_a_row(in_a_row, repetitions, 1, self.turns());
            self.row(how, best)
        };
        let mut rows = vec![row(1, "")];
        if !rows[0].targets.is_empty() {
            rows.push(row(3, ", in a row"));
        }
        rows
    }

    /// Back and forth, with the file copied before each turn.
    fn several_components(&self, repetitions: u32) -> Vec<Row> {
        let best = race_after(copying(self.case.file), repetitions, self.turns());
        vec![self.row("", best)]
    }
}

/// A plane of a file of one frame: its last component.
pub fn rows(sizes: Sizes, original: Option<Original>, repetitions: u32) -> Vec<Row> {
    let file = files::one_frame(sizes);
    let case = Case::new(&file, original);
    let start = row_starts(&case)[0];
    let len = (sizes.stride * sizes.height) as usize;
    let frame = Frame {
        case: &case,
        sizes,
        rows: &file[start..start + len],
    };
    match sizes.components {
        1 => frame.one_component(repetitions),
        _ => frame.several_components(repetitions),
    }
}

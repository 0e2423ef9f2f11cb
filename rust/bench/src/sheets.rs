//! Sheets, beside the plane call that reads the same samples.

use crate::cases::{components, copying, proved_plane, row_starts, Case};
use crate::files;
use crate::table::{Row, Target};
use crate::timing::{race, race_after, Best, Turns, Who};
use nd2::raw::{self, SHEET_HEAD_BYTES};
use sample::parts::Sizes;
use std::cell::RefCell;
use std::hint::black_box;

/// A sheet may take so much of the plane's time.
const TARGET: Target = Target {
    against: Who::Plane,
    most: 1.1,
};

/// The last component of a file of one frame, written as a sheet beside its plane; where it is the only component, also
/// read.
pub fn rows(sizes: Sizes, repetitions: u32) -> Vec<Row> {
    let file = files::one_frame(sizes);
    let case = Case::new(&file, None);
    let bytes = case.plane_bytes();
    let start = row_starts(&case)[0];
    let source = &file[start..start + bytes];
    let at = [0, 0, sizes.components - 1, 0];
    let row = |what: String, best, targets| Row {
        what,
        bytes,
        best,
        targets,
    };
    let of = format!("{} of {} bits", components(sizes.components), sizes.bits);
    let written = case.sheet(at, repetitions, source);
    let mut rows = vec![row(format!("sheet, {of}"), written, vec![TARGET])];
    if sizes.components == 1 {
        let read = case.read_sheet(at, repetitions, source);
        rows.push(row(
            format!("sheet read, {} bits", sizes.bits),
            read,
            vec![],
        ));
    }
    rows
}

impl Case<'_> {
    fn second_sheet(&self, at: [u64; 4], sheet: &mut [u8]) -> u32 {
        let [scene, t, c, z] = at;
        second::sheet(self.file, &self.second, scene, t, c, z, sheet)
    }

    fn proved_sheet(&self, at: [u64; 4], sheet: &mut [u8]) -> bool {
        let [scene, t, c, z] = at;
        self.proved.sheet_into(scene, t, c, z, sheet).is_ok()
    }

    fn sheet_buffer(&self) -> Vec<u8> {
        vec![1; SHEET_HEAD_BYTES + self.plane_bytes()]
    }

    /// The sheet of a plane, which the second implementation writes too.
    fn agreed_sheet(&self, at: [u64; 4]) -> Vec<u8> {
        let (mut proved, mut second) = (self.sheet_buffer(), self.sheet_buffer());
        assert!(self.proved_sheet(at, &mut proved));
        assert_eq!(self.second_sheet(at, &mut second), 0);
        assert!(
            proved == second,
            "the second implementation writes another sheet"
        );
        let mut plane = vec![2; self.plane_bytes()];
        assert!(proved_plane(&self.proved, at, &mut plane));
        assert!(proved[SHEET_HEAD_BYTES..] == plane, "other samples");
        proved
    }

    /// Sheet and plane are written to the start of the same bytes, which are filled before each turn: they find the same
    /// memory, and the same in the cache. The second implementation, which takes long and leaves much there, is timed by itself.
    fn sheet(&self, at: [u64; 4], repetitions: u32, source: &[u8]) -> Best {
        self.agreed_sheet(at);
        let lent = &RefCell::new(self.sheet_buffer());
        let sheet = move || {
            let sheet = &mut lent.borrow_mut();
            assert!(self.proved_sheet(at, black_box(sheet)));
        };
        let plane = move || {
            let samples = &mut lent.borrow_mut()[..source.len()];
            assert!(proved_plane(&self.proved, at, black_box(samples)));
        };
        let mut frame = copying(self.file);
        let before = || {
            frame();
            lent.borrow_mut().fill(1);
        };
        let turns = Turns::new()
            .and(Who::Memcpy, copying(source))
            .and(Who::Proved, sheet)
            .and(Who::Plane, plane);
        let mut best = race_after(before, repetitions, turns);
        let second = || assert_eq!(self.second_sheet(at, black_box(&mut lent.borrow_mut())), 0);
        let alone = Turns::new().and(Who::Second, second);
        let alone = race(repetitions.div_ceil(8), 1, alone);
        best[Who::Second as usize] = alone[Who::Second as usize];
        best
    }

    fn read_sheet(&self, at: [u64; 4], repetitions: u32, source: &[u8]) -> Best {
        let sheet = &self.agreed_sheet(at);
        let buffer = || vec![1u8; source.len()];
        let (mut proved, mut second) = (buffer(), buffer());
        let mut sizes = [0; 3];
        assert_eq!(raw::read_sheet(sheet, &mut proved, &mut sizes), 0);
        assert!(second::read_sheet(sheet, &mut second).is_ok() && proved == second);
        let turns = Turns::new()
            .and(Who::Memcpy, copying(source))
            .and(Who::Proved, move || {
                let number = raw::read_sheet(sheet, black_box(&mut proved), &mut sizes);
                assert_eq!(number, 0)
            })
            .and(Who::Second, move || {
                assert!(second::read_sheet(sheet, black_box(&mut second)).is_ok())
            });
        race_after(copying(self.file), repetitions, turns)
    }
}

//! Opening a file whose trees are large, with a table that suffices.

use crate::before::Before;
use crate::cases::copying;
use crate::original::Original;
use crate::timing::{Turns, Who};
use nd2::raw::{self, ENTRY_BYTES, FRAME_BYTES, SUMMARY_BYTES};
use nd2::Refusal;
use std::hint::black_box;

/// Room in the table beside the entries that are counted.
const SPARE_ENTRIES: usize = 64;

/// Who opens the files beside the proved reader and the second implementation.
#[derive(Clone, Copy)]
pub struct Others {
    pub original: Option<Original>,
    pub before: Option<Before>,
}

/// A file, about how many entries its largest tree has, and the frames that its loops make.
pub struct Opening<'f> {
    pub file: &'f [u8],
    pub entries: usize,
    pub frames: usize,
}

impl<'f> Opening<'f> {
    fn table(&self) -> Vec<u8> {
        vec![1; (self.entries + SPARE_ENTRIES) * ENTRY_BYTES]
    }

    /// Asserts that all open the file, the original with the same register and the earlier build to the same summary.
    fn agree(&self, others: Others) {
        let (mut table, mut ours, mut theirs) =
            (self.table(), [1; SUMMARY_BYTES], [2; SUMMARY_BYTES]);
        assert_eq!(raw::open(self.file, &mut table, &mut ours), 0);
        let register = self.register(&ours);
        if let Some(before) = others.before {
            assert_eq!(before.open(self.file, &mut table, &mut theirs), 0);
            assert!(ours == theirs, "the earlier build has another summary");
        }
        assert!(second::open(self.file, &mut table).is_ok());
        if let Some(original) = others.original {
            let opened = original.open(self.file).expect("the original opens it");
            let mut theirs = vec![1; register.len()];
            assert_eq!(opened.register(&mut theirs), register.len());
            assert!(register == theirs, "the original has another register");
        }
    }

    /// The register, which has just the frames that are expected.
    fn register(&self, summary: &[u8]) -> Vec<u8> {
        let mut register = vec![1; self.frames * FRAME_BYTES];
        let (short, _) = register.split_at_mut(self.frames * FRAME_BYTES - 1);
        let refused = raw::register(self.file, summary, short);
        assert_eq!(refused, Refusal::BUFFER.number(), "fewer frames");
        assert_eq!(raw::register(self.file, summary, &mut register), 0);
        register
    }

    /// Opening. memcpy copies the file.
    pub fn turns(&self, others: Others) -> Turns<'f> {
        self.agree(others);
        let file = self.file;
        let (mut table, mut table_of_second) = (self.table(), self.table());
        let mut summary = [1; SUMMARY_BYTES];
        Turns::new()
            .and(Who::Memcpy, copying(file))
            .and(Who::Proved, move || {
                assert_eq!(raw::open(file, &mut table, black_box(&mut summary)), 0)
            })
            .and(Who::Second, move || {
                assert!(black_box(second::open(file, &mut table_of_second)).is_ok())
            })
            .and_if(
                Who::Original,
                others
                    .original
                    .map(|o| move || assert!(black_box(o.open(file)).is_some())),
            )
            .and_if(Who::Before, others.before.map(|b| self.before(b)))
    }

    fn before(&self, before: Before) -> impl FnMut() + 'f {
        let (file, mut table) = (self.file, self.table());
        let mut summary = [1; SUMMARY_BYTES];
        move || assert_eq!(before.open(file, &mut table, black_box(&mut summary)), 0)
    }
}

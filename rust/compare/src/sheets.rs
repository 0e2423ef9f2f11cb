//! Sheets: each plane that is asked as a sheet too, held against the plane's samples, read back, damaged and read again.

use crate::answers::{Asking, Lent, FILL};
use plan::damaged;
use second::refusal::BUFFER;
use second::sheets::HEAD_BYTES;
use second::Sheet;
use std::fmt;

/// So often a sheet is damaged and read.
const DAMAGES: usize = 3;

/// What reading a sheet gave: its number, what the sheet says, and what the lent samples hold.
#[derive(Clone, PartialEq)]
pub struct Read {
    pub number: u32,
    pub sizes: Sheet,
    pub samples: Vec<u8>,
}

impl fmt::Debug for Read {
    fn fmt(&self, f: &mut fmt::Formatter<'_>) -> fmt::Result {
        let samples = self.samples.len();
        write!(f, "{} {:?}, {samples} samples", self.number, self.sizes)
    }
}

impl Asking<'_> {
    /// Each plane as a sheet, with a buffer that is enough or longer, and with one that is a byte short.
    pub fn sheets(&mut self) {
        let rng = &mut self.plan.sheets.clone();
        let needed = HEAD_BYTES + self.plane_bytes();
        for (i, &at) in self.plan.planes.iter().enumerate() {
            let lent = self.sheet(at, needed + self.plan.spare);
            self.untouched(lent.number, &lent.bytes, needed, "sheet");
            let short = self.sheet(at, needed - 1);
            self.untouched(short.number, &short.bytes, 0, "sheet, short buffer");
            self.answers.short_sheets.push(short.number);
            let plane = self.answers.planes[i].clone();
            self.fault(
                lent.number == plane.number,
                "sheet: another number than the plane's",
            );
            if lent.number == 0 {
                let sheet = &lent.bytes[..needed];
                self.read_back(sheet, &plane.bytes[..needed - HEAD_BYTES]);
                for _ in 0..DAMAGES {
                    let room = needed - HEAD_BYTES + self.plan.spare;
                    let read = self.read(&damaged(rng, sheet), room);
                    self.answers.damaged.push(read);
                }
            }
            self.answers.sheets.push(lent);
        }
    }

    fn sheet(&mut self, at: [u64; 4], room: usize) -> Lent {
        let mut bytes = vec![FILL; room];
        let summary = &self.plan.summary;
        let number = self.reader.sheet(self.file, summary, at, &mut bytes);
        Lent { number, bytes }
    }

    /// A sheet that was written has the plane's samples behind its head, and reading gives these and the sizes.
    fn read_back(&mut self, sheet: &[u8], samples: &[u8]) {
        self.fault(
            &sheet[HEAD_BYTES..] == samples,
            "sheet: other samples than the plane's",
        );
        let read = self.read(sheet, samples.len() + self.plan.spare);
        let s = &self.plan.summary;
        let sizes = Sheet {
            width: s.width,
            height: s.height,
            bits: s.bits,
        };
        let same = read.number == 0 && read.sizes == sizes && read.samples.starts_with(samples);
        self.fault(same, "a sheet that was written is read as something else");
        self.answers.reads.push(read);
        let short = self.read(sheet, samples.len() - 1);
        self.fault(short.number == BUFFER, "a sheet is read into short samples");
        self.answers.short_reads.push(short);
    }

    /// Reads bytes as a sheet, with room for so many bytes of samples.
    fn read(&mut self, sheet: &[u8], room: usize) -> Read {
        let mut samples = vec![FILL; room];
        let answer = self.reader.read_sheet(sheet, &mut samples);
        let number = answer.err().unwrap_or(0);
        let written = sheet.len().saturating_sub(HEAD_BYTES);
        self.untouched(number, &samples, written, "a sheet's samples");
        Read {
            number,
            sizes: answer.unwrap_or_default(),
            samples,
        }
    }
}

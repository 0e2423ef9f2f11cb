//! The seam: what a reader has to answer to be compared. A reader that is linked in from elsewhere gets an `impl` here.

use crate::proved::Proved;
use second::{Channel, Sheet, Summary};

/// The calls of document 01 and of the change requests, over lent bytes.
pub trait Reader {
    /// What the report calls this reader.
    fn name(&self) -> &'static str;

    fn open(&self, file: &[u8], table: &mut [u8]) -> Result<Summary, u32>;

    /// `at` is scene, t, c and z.
    fn plane(&self, file: &[u8], summary: &Summary, at: [u64; 4], samples: &mut [u8]) -> u32;

    fn tree(&self, file: &[u8], summary: &Summary, name: &[u8], table: &mut [u8]) -> u32;

    fn channels(
        &self,
        file: &[u8],
        summary: &Summary,
        table: &mut [u8],
        row: &mut [Channel],
    ) -> u32;

    fn register(&self, file: &[u8], summary: &Summary, buffer: &mut [u8]) -> u32;

    /// The border call.
    fn read_plane(&self, file: &[u8], table: &mut [u8], at: [u64; 4], samples: &mut [u8]) -> u32;

    /// The plane as a sheet.
    fn sheet(&self, file: &[u8], summary: &Summary, at: [u64; 4], sheet: &mut [u8]) -> u32;

    /// What a sheet says.
    fn read_sheet(&self, sheet: &[u8], samples: &mut [u8]) -> Result<Sheet, u32>;

    /// The pixel size: a number, and the picometres.
    fn picometres(&self, file: &[u8], summary: &Summary, table: &mut [u8]) -> (u32, u64);
}

/// The second implementation.
pub struct Second;

impl Reader for Second {
    fn name(&self) -> &'static str {
        "second"
    }

    fn open(&self, file: &[u8], table: &mut [u8]) -> Result<Summary, u32> {
        second::open(file, table)
    }

    fn plane(&self, file: &[u8], summary: &Summary, at: [u64; 4], samples: &mut [u8]) -> u32 {
        let [scene, t, c, z] = at;
        second::plane(file, summary, scene, t, c, z, samples)
    }

    fn tree(&self, file: &[u8], summary: &Summary, name: &[u8], table: &mut [u8]) -> u32 {
        second::tree(file, summary, name, table)
    }

    fn channels(
        &self,
        file: &[u8],
        summary: &Summary,
        table: &mut [u8],
        row: &mut [Channel],
    ) -> u32 {
        second::channels(file, summary, table, row)
    }

    fn register(&self, file: &[u8], summary: &Summary, buffer: &mut [u8]) -> u32 {
        second::register(file, summary, buffer)
    }

    fn read_plane(&self, file: &[u8], table: &mut [u8], at: [u64; 4], samples: &mut [u8]) -> u32 {
        let [scene, t, c, z] = at;
        second::read_plane(file, table, scene, t, c, z, samples)
    }

    fn sheet(&self, file: &[u8], summary: &Summary, at: [u64; 4], sheet: &mut [u8]) -> u32 {
        let [scene, t, c, z] = at;
        second::sheet(file, summary, scene, t, c, z, sheet)
    }

    fn read_sheet(&self, sheet: &[u8], samples: &mut [u8]) -> Result<Sheet, u32> {
        second::read_sheet(sheet, samples)
    }

    fn picometres(&self, file: &[u8], summary: &Summary, table: &mut [u8]) -> (u32, u64) {
        second::picometres(file, summary, table)
    }
}

/// The readers that are compared, the second implementation first. Each is held against the original, and each further
/// one against the first, call by call and byte by byte.
pub fn readers() -> Vec<Box<dyn Reader>> {
    vec![Box::new(Second), Box::new(Proved)]
}

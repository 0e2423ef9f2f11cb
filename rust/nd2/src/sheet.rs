//! TIFF sheets, read back.

use crate::raw::{self, SHEET_HEAD_BYTES};
use crate::reader::zeroed;
use crate::refusal::Refusal;

/// A TIFF sheet: the sizes and the samples of one plane.
#[derive(Clone, Debug, PartialEq, Eq, Hash)]
pub struct Sheet {
    /// Samples in a row.
    pub width: u64,
    /// Rows.
    pub height: u64,
    /// Bits of a sample: 8, 16 or 32.
    pub bits: u64,
    /// The samples, row by row, little-endian.
    pub samples: Vec<u8>,
}

impl Sheet {
    /// Reads a sheet, given its bytes. Only what [`Reader::sheet`](crate::Reader::sheet) writes is one; other TIFF files
    /// are refused.
    ///
    /// # Errors
    ///
    /// 27 where the bytes are not those of a sheet, and 25 where there is no memory for the samples.
    ///
    /// ```
    /// use nd2::{Reader, Refusal, Sheet};
    ///
    /// let bytes = sample::roller(24, 11, 2, 5, 4);
    /// let reader = Reader::open(&bytes)?;
    /// let bytes = reader.sheet(23, 0, 1, 10)?;
    /// let sheet = Sheet::read(&bytes)?;
    /// assert_eq!((sheet.width, sheet.height, sheet.bits), (5, 4, 16));
    /// assert_eq!(sheet.samples, reader.plane(23, 0, 1, 10)?);
    /// assert_eq!(Sheet::read(&bytes[1..]), Err(Refusal::SHEET_LAYOUT));
    /// # Ok::<(), nd2::Refusal>(())
    /// ```
    pub fn read(bytes: &[u8]) -> Result<Sheet, Refusal> {
        let mut sizes = [0; 3];
        // without room first, so that none is made for what is no sheet
        match Refusal::of_call(raw::read_sheet(bytes, &mut [], &mut sizes)) {
            Ok(()) | Err(Refusal::BUFFER) => {}
            Err(refusal) => return Err(refusal),
        }
        let room = bytes.len().saturating_sub(SHEET_HEAD_BYTES);
        let mut samples = zeroed(room).ok_or(Refusal::BUFFER)?;
        Refusal::of_call(raw::read_sheet(bytes, &mut samples, &mut sizes))?;
        let [width, height, bits] = sizes;
        Ok(Sheet {
            width,
            height,
            bits,
            samples,
        })
    }
}

//! The calls, over the bytes of one file.

use crate::channel::Channel;
use crate::raw::{self, CHANNEL_BYTES, ENTRY_BYTES, SUMMARY_BYTES};
use crate::refusal::Refusal;
use crate::register::Register;
use crate::summary::Summary;
use crate::tree::Tree;
use std::fmt;

/// The bytes of the first table that is lent, 256 entries; it doubles while it is too short.
const FIRST_BYTES: usize = 256 * ENTRY_BYTES;
/// For an answer of more bytes memory is made only after the call has nothing else against it.
const SMALL_BYTES: u64 = 1 << 20;

/// An opened file. It borrows the file's bytes, which may come from a disk ([`File`](crate::File)) or stand anywhere in
/// memory, and may be used from several threads.
#[derive(Clone)]
pub struct Reader<'a> {
    file: &'a [u8],
    laid: [u8; SUMMARY_BYTES],
    summary: Summary,
    /// Bytes of a table that was enough for opening.
    room: usize,
}

impl<'a> Reader<'a> {
    /// Opens a file, given its bytes.
    ///
    /// # Errors
    ///
    /// 1 to 5 where it is no ND2 file or its map cannot be read, 6 to 11 where a tree that is needed cannot be, 29 where its
    /// chunk bears another name than the map's, 12 to 17 where it holds what is not read, and 18 where there is no memory
    /// for the entries of a tree.
    ///
    /// ```
    /// let bytes = sample::roller(24, 11, 2, 4, 4);
    /// let reader = nd2::Reader::open(&bytes)?;
    /// assert_eq!(reader.summary().planes(), 528);
    /// # Ok::<(), nd2::Refusal>(())
    /// ```
    pub fn open(file: &'a [u8]) -> Result<Reader<'a>, Refusal> {
        let mut laid = [0; SUMMARY_BYTES];
        let room = with_room(file, FIRST_BYTES, |table| raw::open(file, table, &mut laid))?;
        Ok(Reader {
            file,
            laid,
            summary: Summary::read(&laid),
            room,
        })
    }

    /// What opening told of the file.
    pub fn summary(&self) -> &Summary {
        &self.summary
    }

    /// The file's bytes.
    pub fn bytes(&self) -> &'a [u8] {
        self.file
    }

    /// The samples of component `c` at a point, a time and a focus step: width × height of them, row by row without
    /// padding, their bytes as in the file (little-endian).
    ///
    /// # Errors
    ///
    /// 21 for an index that is not below its count, 22 for a plane that is too large, 23 where the file does not have the
    /// frame, 4 and 24 where the frame cannot be read, 29 where the map leads to a chunk of another name, as to the frame
    /// beside it, and 25 where there is no memory for the samples, which are made room for last.
    ///
    /// ```
    /// let bytes = sample::roller(24, 11, 2, 4, 4);
    /// let reader = nd2::Reader::open(&bytes)?;
    /// assert_eq!(reader.plane(23, 0, 1, 10)?.len(), 4 * 4 * 2);
    /// assert_eq!(reader.plane(24, 0, 1, 10), Err(nd2::Refusal::INDEX));
    /// # Ok::<(), nd2::Refusal>(())
    /// ```
    pub fn plane(&self, scene: u64, t: u64, c: u64, z: u64) -> Result<Vec<u8>, Refusal> {
        let plane = |samples: &mut [u8]| self.plane_into(scene, t, c, z, samples);
        filled(self.summary.plane_bytes(), plane)
    }

    /// The same into a buffer of at least [`Summary::plane_bytes`] bytes; later bytes keep what they are, and on a
    /// refusal all of them do.
    ///
    /// # Errors
    ///
    /// As [`plane`](Reader::plane), and 25 where the buffer is too short.
    pub fn plane_into(
        &self,
        scene: u64,
        t: u64,
        c: u64,
        z: u64,
        samples: &mut [u8],
    ) -> Result<(), Refusal> {
        Refusal::of_call(raw::plane(self.file, &self.laid, [scene, t, c, z], samples))
    }

    /// The plane as a TIFF sheet, for programs that read TIFF 6.0: one uncompressed strip of grey samples, as
    /// [`plane`](Reader::plane) gives them, behind a head of [`raw::SHEET_HEAD_BYTES`]. Samples of 32 bits are floats
    /// there. [`Sheet::read`](crate::Sheet::read) reads it.
    ///
    /// # Errors
    ///
    /// As [`plane`](Reader::plane), and 26 where the sheet would have more than 4,294,967,295 bytes.
    ///
    /// ```
    /// let bytes = sample::roller(24, 11, 2, 4, 4);
    /// let reader = nd2::Reader::open(&bytes)?;
    /// let sheet = reader.sheet(23, 0, 1, 10)?;
    /// assert!(sheet.starts_with(b"II*\0"));
    /// assert_eq!(sheet[nd2::raw::SHEET_HEAD_BYTES..], reader.plane(23, 0, 1, 10)?);
    /// # Ok::<(), nd2::Refusal>(())
    /// ```
    pub fn sheet(&self, scene: u64, t: u64, c: u64, z: u64) -> Result<Vec<u8>, Refusal> {
        let written = |sheet: &mut [u8]| self.sheet_into(scene, t, c, z, sheet);
        filled(self.summary.sheet_bytes(), written)
    }

    /// The same into a buffer of at least [`Summary::sheet_bytes`] bytes; later bytes keep what they are, and on a
    /// refusal all of them do.
    ///
    /// # Errors
    ///
    /// As [`sheet`](Reader::sheet), and 25 where the buffer is too short.
    pub fn sheet_into(
        &self,
        scene: u64,
        t: u64,
        c: u64,
        z: u64,
        sheet: &mut [u8],
    ) -> Result<(), Refusal> {
        Refusal::of_call(raw::sheet(self.file, &self.laid, [scene, t, c, z], sheet))
    }

    /// The channels, one for each component. A plane record of the file may cover several components, as a colour
    /// camera's does: these have the same name and colour. One that the file does not describe has neither, and so have all
    /// where the chunk that describes them bears another name than the map's.
    ///
    /// # Errors
    ///
    /// 18 where there is no memory for the entries of the tree, and 19 where there is none for the channels.
    ///
    /// ```
    /// let camera = sample::Roller { one_record: true, ..sample::Roller::new(2, 1, 3, 4, 4) };
    /// let bytes = camera.file();
    /// let channels = nd2::Reader::open(&bytes)?.channels()?;
    /// assert_eq!(channels.len(), 3);
    /// assert!(channels.iter().all(|c| c.name.as_deref() == Some("colour camera")));
    /// # Ok::<(), nd2::Refusal>(())
    /// ```
    pub fn channels(&self) -> Result<Vec<Channel>, Refusal> {
        let bytes = records(self.summary.components, CHANNEL_BYTES);
        let mut row = bytes.and_then(zeroed).ok_or(Refusal::CHANNEL_ROW)?;
        with_room(self.file, self.room, |table| {
            raw::channels(self.file, &self.laid, table, &mut row)
        })?;
        Ok(Channel::read_all(self.file, &row))
    }

    /// The size of a pixel in whole picometres: the file's own number of micrometres times 1,000,000, to the nearest
    /// whole number, and to the even one from the middle between two. Nothing else is rounded on the way;
    /// [`Summary::pixel_size`] is the same size as f32.
    ///
    /// # Errors
    ///
    /// 11 where the file states no size above 0, 28 where the size is infinite or over 2^64 - 1 picometres, 4, 29 and 6 to
    /// 10 where the tree that states it cannot be read (8 where it is packed, 29 where its chunk bears another name), and
    /// 18 where there is no memory for its entries.
    ///
    /// ```
    /// let bytes = sample::roller(24, 11, 2, 4, 4);
    /// let reader = nd2::Reader::open(&bytes)?;
    /// assert_eq!(reader.summary().pixel_size, Some((0.325, 0.325)));
    /// assert_eq!(reader.picometres()?, 325_000);
    /// # Ok::<(), nd2::Refusal>(())
    /// ```
    pub fn picometres(&self) -> Result<u64, Refusal> {
        let mut picometres = 0;
        with_room(self.file, self.room, |table| {
            raw::picometres(self.file, &self.laid, table, &mut picometres)
        })?;
        Ok(picometres)
    }

    /// Every frame that the loops make, in order of its number, with its place in the file where the map has it. At most
    /// 48 MB are kept, however many frames a file says that it has; [`Register`] says of which part that is not the proved
    /// call's answer.
    ///
    /// # Errors
    ///
    /// 25 where there is no memory for it.
    ///
    /// ```
    /// let bytes = sample::roller(24, 11, 2, 4, 4);
    /// let reader = nd2::Reader::open(&bytes)?;
    /// let register = reader.register()?;
    /// assert_eq!((register.len(), register.present()), (264, 264));
    /// for frame in &register {
    ///     println!("point {}, step {} at {:?}", frame.scene, frame.z, frame.offset);
    /// }
    /// # Ok::<(), nd2::Refusal>(())
    /// ```
    pub fn register(&self) -> Result<Register<'a>, Refusal> {
        Register::new(self.file, &self.laid, &self.summary)
    }

    /// The register as the core writes it, 24 bytes a frame, into a buffer: scene, t, z and state as u32 (0 in the map, 1
    /// absent), then the offset as u64, all little-endian. Later bytes keep what they are, on a refusal all of them.
    ///
    /// # Errors
    ///
    /// 25 where the buffer is too short.
    pub fn register_into(&self, buffer: &mut [u8]) -> Result<(), Refusal> {
        Refusal::of_call(raw::register(self.file, &self.laid, buffer))
    }

    /// The tree of a chunk. Names end in `!`, as `ImageAttributesLV!`.
    ///
    /// # Errors
    ///
    /// 11 where the map has no such chunk, 4 where it is no chunk, 29 where it bears another name, 6 to 10 where the tree
    /// cannot be read, and 18 where there is no memory for its entries.
    ///
    /// ```
    /// let bytes = sample::roller(24, 11, 2, 4, 4);
    /// let reader = nd2::Reader::open(&bytes)?;
    /// let tree = reader.tree("ImageAttributesLV!")?;
    /// let width = tree.find(&["SLxImageAttributes", "uiWidth"]);
    /// assert_eq!(width.map(|entry| entry.value()), Some(nd2::Value::U64(4)));
    /// # Ok::<(), nd2::Refusal>(())
    /// ```
    pub fn tree(&self, name: impl AsRef<[u8]>) -> Result<Tree<'a>, Refusal> {
        let name = name.as_ref();
        let table = with_table(self.file, self.room, |table| {
            raw::tree(self.file, &self.laid, name, table)
        })?;
        Ok(Tree::new(self.file, table))
    }
}

impl fmt::Debug for Reader<'_> {
    fn fmt(&self, f: &mut fmt::Formatter<'_>) -> fmt::Result {
        let mut out = f.debug_struct("Reader");
        out.field("bytes", &self.file.len());
        out.field("summary", &self.summary).finish()
    }
}

/// The bytes of so many records.
pub(crate) fn records(count: u64, bytes: usize) -> Option<usize> {
    usize::try_from(count).ok()?.checked_mul(bytes)
}

/// What a call writes into so many bytes. All that it refuses for another reason than their number is refused before there
/// is memory for them; 25 where there is none.
fn filled(bytes: u64, call: impl Fn(&mut [u8]) -> Result<(), Refusal>) -> Result<Vec<u8>, Refusal> {
    if bytes > SMALL_BYTES {
        match call(&mut []) {
            Ok(()) | Err(Refusal::BUFFER) => {}
            Err(refusal) => return Err(refusal),
        }
    }
    let bytes = usize::try_from(bytes).ok().and_then(zeroed);
    let mut bytes = bytes.ok_or(Refusal::BUFFER)?;
    call(&mut bytes)?;
    Ok(bytes)
}

/// So many bytes of zero, if there is memory for them.
pub(crate) fn zeroed(len: usize) -> Option<Vec<u8>> {
    let mut bytes = Vec::new();
    bytes.try_reserve_exact(len).ok()?;
    bytes.resize(len, 0);
    Some(bytes)
}

/// The bytes of the largest table that can be of use: two bytes of a tree make at most one entry.
fn most_bytes(file: &[u8]) -> usize {
    (file.len() / 2).saturating_mul(ENTRY_BYTES)
}

/// Calls as [`with_table`] does, but with a first table on the stack where that has room for it; the bytes of a table that was
/// enough.
fn with_room(
    file: &[u8],
    first: usize,
    mut call: impl FnMut(&mut [u8]) -> u32,
) -> Result<usize, Refusal> {
    let most = most_bytes(file);
    let len = first.min(most);
    let longer = match len <= FIRST_BYTES {
        false => len,
        true => match Refusal::of_call(call(&mut [0; FIRST_BYTES][..len])) {
            Ok(()) => return Ok(len),
            Err(Refusal::TABLE) if len < most => len.saturating_mul(2),
            Err(refusal) => return Err(refusal),
        },
    };
    with_table(file, longer, call).map(|table| table.len())
}

/// Calls with a table of at least `first` bytes, and with twice as many while it is too short and more can be of use.
fn with_table(
    file: &[u8],
    first: usize,
    mut call: impl FnMut(&mut [u8]) -> u32,
) -> Result<Vec<u8>, Refusal> {
    let most = most_bytes(file);
    let mut len = first.min(most);
    loop {
        let mut table = zeroed(len).ok_or(Refusal::TABLE)?;
        match Refusal::of_call(call(&mut table)) {
            Ok(()) => return Ok(table),
            Err(Refusal::TABLE) if len < most => len = len.saturating_mul(2).min(most),
            Err(refusal) => return Err(refusal),
        }
    }
}

#[cfg(test)]
mod tests {
    use super::*;

    #[test]
    fn the_table_doubles_up_to_what_can_be_of_use() {
        let file = [0; 100];
        let mut lent = Vec::new();
        let refused = with_table(&file, 480, |table| {
            lent.push(table.len());
            Refusal::TABLE.number()
        });
        assert_eq!(refused, Err(Refusal::TABLE));
        assert_eq!(lent, [480, 960, 1920, 2400]);
    }

    #[test]
    fn a_file_of_one_byte_gets_a_table_of_none() {
        let table = with_table(&[0], 480, |table| table.len() as u32);
        assert_eq!(table, Ok(Vec::new()));
    }

    #[test]
    fn a_first_table_on_the_stack_is_followed_by_the_same_ones() {
        for (first, file) in [(480, vec![0; 100]), (FIRST_BYTES, vec![0; 4000])] {
            let mut lent = [Vec::new(), Vec::new()];
            let refused = with_room(&file, first, |table| {
                assert!(table.iter().all(|&byte| byte == 0));
                lent[0].push(table.len());
                Refusal::TABLE.number()
            });
            assert_eq!(refused, Err(Refusal::TABLE));
            let _ = with_table(&file, first, |table| {
                lent[1].push(table.len());
                Refusal::TABLE.number()
            });
            assert_eq!(lent[0], lent[1]);
        }
    }

    #[test]
    fn the_bytes_of_the_table_that_was_enough_are_told() {
        let file = vec![0; 4000];
        let enough = |least| {
            move |table: &mut [u8]| match table.len() < least {
                true => Refusal::TABLE.number(),
                false => 0,
            }
        };
        assert_eq!(with_room(&file, FIRST_BYTES, enough(1)), Ok(FIRST_BYTES));
        assert_eq!(
            with_room(&file, FIRST_BYTES, enough(FIRST_BYTES + 1)),
            Ok(2 * FIRST_BYTES)
        );
        // no table on the stack is as long
        let longer = 2 * FIRST_BYTES;
        assert_eq!(with_room(&file, longer, enough(1)), Ok(longer));
        assert_eq!(with_room(&[0], FIRST_BYTES, enough(0)), Ok(0));
    }

    #[test]
    fn what_there_is_no_memory_for_is_none() {
        assert_eq!(zeroed(usize::MAX), None);
        assert_eq!(records(u64::MAX, 24), None);
    }
}

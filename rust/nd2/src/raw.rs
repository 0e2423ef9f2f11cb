//! The C interface as it is (`include/nd2.h`): every call over lent slices, answered by a number.
//!
//! 0 is an accepted call, any other number a [`Refusal`](crate::Refusal). On a refusal samples, register and sheet keep
//! every byte, and table, summary, channel records, the sizes of a sheet and the picometres of a pixel are all zero.
//! [`Reader`](crate::Reader) and [`Sheet`](crate::Sheet) are made of these calls; they are for callers that lend their
//! own buffers, and for tests.
//!
//! Every `unsafe` block here passes a slice as its pointer and its length, or a number that is lent. A slice of Rust is
//! never null, lives through the call, and one that is written overlaps no other: all that the header asks for.

/// Bytes of a summary.
pub const SUMMARY_BYTES: usize = 144;
/// Bytes of a channel record.
pub const CHANNEL_BYTES: usize = 56;
/// Bytes of an entry of the table.
pub const ENTRY_BYTES: usize = 48;
/// Bytes of a frame's record in the register.
pub const FRAME_BYTES: usize = 24;
/// Bytes of a sheet before its samples.
pub const SHEET_HEAD_BYTES: usize = 186;

mod calls {
    extern "C" {
        pub fn nd2_open(
            file: *const u8,
            file_len: usize,
            table: *mut u8,
            table_len: usize,
            summary: *mut u8,
            summary_len: usize,
        ) -> u32;
        pub fn nd2_plane(
            file: *const u8,
            file_len: usize,
            summary: *const u8,
            summary_len: usize,
            scene: u64,
            t: u64,
            c: u64,
            z: u64,
            samples: *mut u8,
            samples_len: usize,
        ) -> u32;
        pub fn nd2_sheet(
            file: *const u8,
            file_len: usize,
            summary: *const u8,
            summary_len: usize,
            scene: u64,
            t: u64,
            c: u64,
            z: u64,
            sheet: *mut u8,
            sheet_len: usize,
        ) -> u32;
        pub fn nd2_sheet_read(
            sheet: *const u8,
            sheet_len: usize,
            samples: *mut u8,
            samples_len: usize,
            width: *mut u64,
            height: *mut u64,
            bits: *mut u64,
        ) -> u32;
        pub fn nd2_tree(
            file: *const u8,
            file_len: usize,
            summary: *const u8,
            summary_len: usize,
            name: *const u8,
            name_len: usize,
            table: *mut u8,
            table_len: usize,
        ) -> u32;
        pub fn nd2_channels(
            file: *const u8,
            file_len: usize,
            summary: *const u8,
            summary_len: usize,
            table: *mut u8,
            table_len: usize,
            row: *mut u8,
            row_len: usize,
        ) -> u32;
        pub fn nd2_register(
            file: *const u8,
            file_len: usize,
            summary: *const u8,
            summary_len: usize,
            buffer: *mut u8,
            buffer_len: usize,
        ) -> u32;
        pub fn nd2_picometres(
            file: *const u8,
            file_len: usize,
            summary: *const u8,
            summary_len: usize,
            table: *mut u8,
            table_len: usize,
            picometres: *mut u64,
        ) -> u32;
        pub fn nd2_read_plane(
            file: *const u8,
            file_len: usize,
            table: *mut u8,
            table_len: usize,
            scene: u64,
            t: u64,
            c: u64,
            z: u64,
            samples: *mut u8,
            samples_len: usize,
        ) -> u32;
    }
}

/// Opens a file and writes its summary, [`SUMMARY_BYTES`] long. The table is all zero afterwards.
pub fn open(file: &[u8], table: &mut [u8], summary: &mut [u8]) -> u32 {
    unsafe {
        calls::nd2_open(
            file.as_ptr(),
            file.len(),
            table.as_mut_ptr(),
            table.len(),
            summary.as_mut_ptr(),
            summary.len(),
        )
    }
}

/// Writes the samples of the plane at scene, t, c and z; later bytes keep what they are.
pub fn plane(file: &[u8], summary: &[u8], at: [u64; 4], samples: &mut [u8]) -> u32 {
    let [scene, t, c, z] = at;
    unsafe {
        calls::nd2_plane(
            file.as_ptr(),
            file.len(),
            summary.as_ptr(),
            summary.len(),
            scene,
            t,
            c,
            z,
            samples.as_mut_ptr(),
            samples.len(),
        )
    }
}

/// Writes the plane at scene, t, c and z as a TIFF sheet: [`SHEET_HEAD_BYTES`] and the samples; later bytes keep what they
/// are.
pub fn sheet(file: &[u8], summary: &[u8], at: [u64; 4], sheet: &mut [u8]) -> u32 {
    let [scene, t, c, z] = at;
    unsafe {
        calls::nd2_sheet(
            file.as_ptr(),
            file.len(),
            summary.as_ptr(),
            summary.len(),
            scene,
            t,
            c,
            z,
            sheet.as_mut_ptr(),
            sheet.len(),
        )
    }
}

/// Reads a sheet: writes its samples, later bytes keep what they are, and tells width, height and bits.
pub fn read_sheet(sheet: &[u8], samples: &mut [u8], sizes: &mut [u64; 3]) -> u32 {
    let [width, height, bits] = sizes;
    unsafe {
        calls::nd2_sheet_read(
            sheet.as_ptr(),
            sheet.len(),
            samples.as_mut_ptr(),
            samples.len(),
            width,
            height,
            bits,
        )
    }
}

/// Writes the entries of the tree of a chunk, and zeros behind them.
pub fn tree(file: &[u8], summary: &[u8], name: &[u8], table: &mut [u8]) -> u32 {
    unsafe {
        calls::nd2_tree(
            file.as_ptr(),
            file.len(),
            summary.as_ptr(),
            summary.len(),
            name.as_ptr(),
            name.len(),
            table.as_mut_ptr(),
            table.len(),
        )
    }
}

/// Writes a record for each component, and zeros behind them. The table is all zero afterwards.
pub fn channels(file: &[u8], summary: &[u8], table: &mut [u8], row: &mut [u8]) -> u32 {
    unsafe {
        calls::nd2_channels(
            file.as_ptr(),
            file.len(),
            summary.as_ptr(),
            summary.len(),
            table.as_mut_ptr(),
            table.len(),
            row.as_mut_ptr(),
            row.len(),
        )
    }
}

/// Writes the record of each frame; later bytes keep what they are.
pub fn register(file: &[u8], summary: &[u8], buffer: &mut [u8]) -> u32 {
    unsafe {
        calls::nd2_register(
            file.as_ptr(),
            file.len(),
            summary.as_ptr(),
            summary.len(),
            buffer.as_mut_ptr(),
            buffer.len(),
        )
    }
}

/// Tells the size of a pixel in whole picometres. The table is all zero afterwards.
pub fn picometres(file: &[u8], summary: &[u8], table: &mut [u8], picometres: &mut u64) -> u32 {
    unsafe {
        calls::nd2_picometres(
            file.as_ptr(),
            file.len(),
            summary.as_ptr(),
            summary.len(),
            table.as_mut_ptr(),
            table.len(),
            picometres,
        )
    }
}

/// Opens a file and reads the plane at scene, t, c and z. The table is all zero afterwards.
pub fn read_plane(file: &[u8], table: &mut [u8], at: [u64; 4], samples: &mut [u8]) -> u32 {
    let [scene, t, c, z] = at;
    unsafe {
        calls::nd2_read_plane(
            file.as_ptr(),
            file.len(),
            table.as_mut_ptr(),
            table.len(),
            scene,
            t,
            c,
            z,
            samples.as_mut_ptr(),
            samples.len(),
        )
    }
}

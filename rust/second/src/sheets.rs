//! Change request 2: a plane as a file of TIFF 6.0, and such a file read back.

use crate::bytes::{u16_at, u32_at};
use crate::calls::{copy, fits, frame_of, number, plane_bytes};
use crate::refusal::{BUFFER, SHEET_LAYOUT, SHEET_LONG};
use crate::summary::Summary;

/// The most bytes that a sheet has.
const MOST_SHEET: u128 = 4_294_967_295;

const BYTE_ORDER: &[u8; 2] = b"II";
const VERSION: u16 = 42;

/// Where the directory is: a u16 that says how many entries, the entries, and the u32 place of a further directory.
const DIRECTORY: usize = 8;
const ENTRY: usize = 12;
const ENTRIES: usize = DIRECTORY + 2;
const NEXT: usize = ENTRIES + ENTRY * TAGS.len();
/// Where the two resolutions stand.
const RESOLUTIONS: [usize; 2] = [170, 178];
/// So many bytes stand before the samples.
pub const HEAD_BYTES: usize = 186;

/// The types of fields, by TIFF's numbers.
#[derive(Clone, Copy, Debug, PartialEq, Eq)]
enum Kind {
    Short = 3,
    Long = 4,
    Rational = 5,
}

/// The tags of the fields and their types, in the order of the entries.
const TAGS: [(u16, Kind); 13] = [
    (256, Kind::Long),     // width
    (257, Kind::Long),     // height
    (258, Kind::Short),    // bits
    (259, Kind::Short),    // compression, 1 for none
    (262, Kind::Short),    // 1 for black as zero
    (273, Kind::Long),     // where the strip is
    (277, Kind::Short),    // components
    (278, Kind::Long),     // rows of the strip
    (279, Kind::Long),     // bytes of the strip
    (282, Kind::Rational), // resolution across
    (283, Kind::Rational), // and down
    (296, Kind::Short),    // its unit, 1 for none
    (339, Kind::Short),    // sample format
];

/// What a sheet says of its samples.
#[derive(Clone, Copy, Debug, Default, PartialEq, Eq)]
pub struct Sheet {
    pub width: u64,
    pub height: u64,
    pub bits: u64,
}

/// The plane call with a sheet for its samples: its refusals up to 24, then 26, then 25.
#[allow(clippy::too_many_arguments)]
pub fn sheet(
    file: &[u8],
    summary: &Summary,
    scene: u64,
    t: u64,
    c: u64,
    z: u64,
    lent: &mut [u8],
) -> u32 {
    let frame = frame_of(file, summary, [scene, t, c, z]);
    number(frame.and_then(|frame| written(frame, summary, c, lent)))
}

fn written(frame: &[u8], s: &Summary, c: u64, lent: &mut [u8]) -> Result<(), u32> {
    let bytes = HEAD_BYTES as u128 + plane_bytes(s)?;
    if bytes > MOST_SHEET {
        return Err(SHEET_LONG);
    }
    fits(bytes, lent)?;
    let (before, strip) = lent.split_at_mut(HEAD_BYTES);
    before.copy_from_slice(&head(s));
    copy(frame, s, c, strip);
    Ok(())
}

/// What a field is written as: a number, or two of them that stand behind the directory.
enum Value {
    Number(u32),
    Ratio(u32, u32),
}

/// The values of the fields, in the order of their tags. The sheet has been found short enough for each of them.
fn values(s: &Summary) -> [Value; 13] {
    let size = s.bits / 8;
    let bytes = s.width * s.height * size;
    let number = |n: u64| Value::Number(n as u32);
    [
        number(s.width),
        number(s.height),
        number(s.bits),
        number(1),
        number(1),
        number(HEAD_BYTES as u64),
        number(1),
        number(s.height),
        number(bytes),
        Value::Ratio(1, 1),
        Value::Ratio(1, 1),
        number(1),
        number(sample_format(s.bits)),
    ]
}

/// 1 for unsigned whole numbers, 3 for IEEE floating point.
fn sample_format(bits: u64) -> u64 {
    if bits == 32 {
        3
    } else {
        1
    }
}

/// All bytes before the strip: header, directory, and the ratios one after the other.
fn head(s: &Summary) -> Vec<u8> {
    let mut out = BYTE_ORDER.to_vec();
    out.extend(VERSION.to_le_bytes());
    out.extend((DIRECTORY as u32).to_le_bytes());
    out.extend((TAGS.len() as u16).to_le_bytes());
    let mut behind = Vec::new();
    for ((tag, kind), value) in TAGS.into_iter().zip(values(s)) {
        let value = match value {
            Value::Number(number) => number,
            Value::Ratio(above, below) => {
                let place = NEXT + 4 + behind.len();
                behind.extend([above, below].map(u32::to_le_bytes).concat());
                place as u32
            }
        };
        out.extend(tag.to_le_bytes());
        out.extend((kind as u16).to_le_bytes());
        out.extend([1, value].map(u32::to_le_bytes).concat());
    }
    out.extend([0; 4]);
    out.extend(behind);
    out
}

/// The samples of a sheet into the lent bytes, and what it says of them: 27, then 25.
pub fn read_sheet(sheet: &[u8], samples: &mut [u8]) -> Result<Sheet, u32> {
    let (sizes, strip) = read(sheet).ok_or(SHEET_LAYOUT)?;
    let place = samples.get_mut(..strip.len()).ok_or(BUFFER)?;
    place.copy_from_slice(strip);
    Ok(sizes)
}

/// What a sheet says and its strip, if it is of the layout.
fn read(sheet: &[u8]) -> Option<(Sheet, &[u8])> {
    let values = directory(sheet)?;
    let strip = sheet.get(HEAD_BYTES..)?;
    let sizes = sizes(&values, strip.len())?;
    let resolved = [values[9], values[10]] == RESOLUTIONS.map(|place| place as u32)
        && RESOLUTIONS
            .iter()
            .all(|&place| ratio(sheet, place) == Some([1, 1]));
    let short_enough = sheet.len() as u128 <= MOST_SHEET;
    (short_enough && resolved).then_some((sizes, strip))
}

/// The two numbers of a RATIONAL.
fn ratio(sheet: &[u8], place: usize) -> Option<[u32; 2]> {
    Some([u32_at(sheet, place)?, u32_at(sheet, place + 4)?])
}

/// The values of the one directory of a little-endian TIFF, if its fields are those of a sheet.
fn directory(sheet: &[u8]) -> Option<[u32; 13]> {
    let begins = sheet.starts_with(BYTE_ORDER) && u16_at(sheet, 2)? == VERSION;
    let first = u32_at(sheet, 4)? as usize == DIRECTORY;
    let many = u16_at(sheet, DIRECTORY)? as usize == TAGS.len();
    let alone = u32_at(sheet, NEXT)? == 0;
    if !(begins && first && many && alone) {
        return None;
    }
    let mut values = [0; 13];
    let entries = sheet[ENTRIES..NEXT].chunks_exact(ENTRY);
    for ((value, entry), (tag, kind)) in values.iter_mut().zip(entries).zip(TAGS) {
        *value = field(entry, tag, kind)?;
    }
    Some(values)
}

/// The value of an entry, if that is the field of this tag and this type. A SHORT stands in the first two of four bytes,
/// and the other two are zero.
fn field(entry: &[u8], tag: u16, kind: Kind) -> Option<u32> {
    let of_kind = u16_at(entry, 0)? == tag && u16_at(entry, 2)? == kind as u16;
    if !of_kind || u32_at(entry, 4)? != 1 {
        return None;
    }
    match kind {
        Kind::Short if u16_at(entry, 10)? != 0 => None,
        Kind::Short => u16_at(entry, 8).map(u32::from),
        Kind::Long | Kind::Rational => u32_at(entry, 8),
    }
}

/// The sizes that the values say, if these fit together and with a strip of so many bytes.
fn sizes(values: &[u32; 13], strip: usize) -> Option<Sheet> {
    let [width, height, bits, compression, black, place, components, rows, bytes, _, _, unit, format] =
        values.map(u64::from);
    let known = matches!(bits, 8 | 16 | 32) && format == sample_format(bits);
    let plain = [compression, black, components, unit] == [1; 4];
    let placed = place as usize == HEAD_BYTES && rows == height;
    let counted = width as u128 * height as u128 * (bits / 8) as u128;
    let filled = counted == bytes as u128 && counted == strip as u128;
    let sized = width > 0 && height > 0;
    let sheet = Sheet {
        width,
        height,
        bits,
    };
    (known && plain && placed && filled && sized).then_some(sheet)
}

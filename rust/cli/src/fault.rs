//! What is wrong with bytes that are no sheet, for a person. Whether they are one, the proved reader says.

use nd2::raw::SHEET_HEAD_BYTES;

const MOST_BYTES: u64 = 4_294_967_295;

const SHORT: u16 = 3;
const LONG: u16 = 4;
const RATIONAL: u16 = 5;

/// Tag, name and type.
type Field = (u16, &'static str, u16);

/// The fields of a sheet.
const FIELDS: [Field; 13] = [
    (256, "ImageWidth", LONG),
    (257, "ImageLength", LONG),
    (258, "BitsPerSample", SHORT),
    (259, "Compression", SHORT),
    (262, "PhotometricInterpretation", SHORT),
    (273, "StripOffsets", LONG),
    (277, "SamplesPerPixel", SHORT),
    (278, "RowsPerStrip", LONG),
    (279, "StripByteCounts", LONG),
    (282, "XResolution", RATIONAL),
    (283, "YResolution", RATIONAL),
    (296, "ResolutionUnit", SHORT),
    (339, "SampleFormat", SHORT),
];

const DIRECTORY: usize = 8;
const NEXT: usize = 166;
const RESOLUTIONS: [usize; 2] = [170, 178];

fn u16_at(bytes: &[u8], at: usize) -> u16 {
    u16::from_le_bytes([bytes[at], bytes[at + 1]])
}

fn u32_at(bytes: &[u8], at: usize) -> u32 {
    u16_at(bytes, at) as u32 | (u16_at(bytes, at + 2) as u32) << 16
}

/// The first thing that is wrong; none for a sheet.
pub fn of(bytes: &[u8]) -> Option<String> {
    start(bytes)
        .or_else(|| directory(bytes))
        .or_else(|| values(bytes))
        .or_else(|| behind(bytes))
        .or_else(|| length(bytes))
}

/// The first eight bytes, and whether there are enough for all that stands before the samples.
fn start(bytes: &[u8]) -> Option<String> {
    let len = bytes.len();
    if bytes.starts_with(b"MM\0*") {
        return Some("it is a big-endian TIFF, a sheet is little-endian".to_string());
    }
    if !bytes.starts_with(b"II*\0") {
        return Some("it does not begin as a TIFF".to_string());
    }
    if len < SHEET_HEAD_BYTES {
        let head = SHEET_HEAD_BYTES;
        return Some(format!(
            "it has {len} bytes, a sheet {head} before its samples"
        ));
    }
    if len as u64 > MOST_BYTES {
        return Some(format!("it has {len} bytes, a sheet at most {MOST_BYTES}"));
    }
    let place = u32_at(bytes, 4);
    differs("the directory's place", place.into(), DIRECTORY as u64)
}

/// A sentence where a number is not what a sheet has.
fn differs(what: &str, number: u64, expected: u64) -> Option<String> {
    (number != expected).then(|| format!("{what} is {number}, in a sheet {expected}"))
}

/// How many fields there are, and of each its tag, its type and how many values it has.
fn directory(bytes: &[u8]) -> Option<String> {
    let many = u16_at(bytes, DIRECTORY);
    let fields = differs("the number of fields", many.into(), FIELDS.len() as u64);
    let field = |(i, (tag, name, kind)): (usize, &Field)| {
        let at = entry(i);
        let of = format!("{tag} {name}");
        let tag_differs = differs(
            &format!("the tag of field {}", i + 1),
            u16_at(bytes, at).into(),
            (*tag).into(),
        );
        let kind_at = u16_at(bytes, at + 2).into();
        let count = u32_at(bytes, at + 4).into();
        tag_differs
            .or_else(|| differs(&format!("the type of {of}"), kind_at, (*kind).into()))
            .or_else(|| differs(&format!("the number of values of {of}"), count, 1))
    };
    fields.or_else(|| FIELDS.iter().enumerate().find_map(field))
}

fn entry(i: usize) -> usize {
    DIRECTORY + 2 + 12 * i
}

/// The four bytes of a field's value, as a number: those of a SHORT that are not used have to be zero.
fn value(bytes: &[u8], i: usize) -> u64 {
    u32_at(bytes, entry(i) + 8).into()
}

/// The values of the fields.
fn values(bytes: &[u8]) -> Option<String> {
    let [width, height, bits] = [0, 1, 2].map(|i| value(bytes, i));
    if width == 0 || height == 0 {
        return Some(format!("it says {width} x {height} samples"));
    }
    if ![8, 16, 32].contains(&bits) {
        return Some(format!(
            "258 BitsPerSample is {bits}, in a sheet 8, 16 or 32"
        ));
    }
    let strip = width as u128 * height as u128 * (bits / 8) as u128;
    let strip = u64::try_from(strip).unwrap_or(u64::MAX);
    let [across, down] = RESOLUTIONS.map(|place| place as u64);
    let format = if bits == 32 { 3 } else { 1 };
    let head = SHEET_HEAD_BYTES as u64;
    let expected = [1, 1, head, 1, height, strip, across, down, 1, format];
    let mut fields = FIELDS.iter().enumerate().skip(3).zip(expected);
    let wrong = |((i, (tag, name, _)), expected): ((usize, &Field), u64)| {
        differs(&format!("{tag} {name}"), value(bytes, i), expected)
    };
    fields.find_map(wrong)
}

/// What stands between the fields and the samples.
fn behind(bytes: &[u8]) -> Option<String> {
    let next = u32_at(bytes, NEXT).into();
    let ratio = |at: &usize| {
        let (above, below) = (u32_at(bytes, *at), u32_at(bytes, *at + 4));
        let what = format!("the resolution at byte {at} is {above}/{below}, in a sheet 1/1");
        ((above, below) != (1, 1)).then_some(what)
    };
    differs("the place of a further directory", next, 0)
        .or_else(|| RESOLUTIONS.iter().find_map(ratio))
}

/// Whether the samples end with the file.
fn length(bytes: &[u8]) -> Option<String> {
    let strip = value(bytes, 8);
    let there = (bytes.len() - SHEET_HEAD_BYTES) as u64;
    let by = strip.abs_diff(there);
    let bytes = if by == 1 { "byte" } else { "bytes" };
    let how = if there < strip { "shorter" } else { "longer" };
    (by > 0).then(|| format!("it is {by} {bytes} {how} than its sizes say"))
}

#[cfg(test)]
mod tests {
    use super::*;
    use nd2::{Reader, Sheet};

    /// The sheet of 2 x 1 samples of 16 bits.
    fn good() -> Vec<u8> {
        let file = sample::roller(1, 1, 1, 2, 1);
        let reader = Reader::open(&file).unwrap();
        reader.sheet(0, 0, 0, 0).unwrap()
    }

    #[test]
    fn there_is_a_fault_where_there_is_no_sheet() {
        let good = good();
        assert_eq!(of(&good), None);
        for at in 0..good.len() {
            for bit in 0..8 {
                let mut bytes = good.clone();
                bytes[at] ^= 1 << bit;
                assert_eq!(of(&bytes).is_some(), Sheet::read(&bytes).is_err(), "{at}");
            }
        }
        for len in 0..good.len() {
            assert!(of(&good[..len]).is_some(), "{len}");
        }
    }

    fn told(bytes: &[u8]) -> String {
        of(bytes).unwrap_or_default()
    }

    #[test]
    fn what_is_wrong_with_the_file_is_told() {
        let big = "it is a big-endian TIFF, a sheet is little-endian";
        assert_eq!(told(b"MM\0*"), big);
        assert_eq!(told(b"GIF89a"), "it does not begin as a TIFF");
        let short = "it has 20 bytes, a sheet 186 before its samples";
        assert_eq!(told(&good()[..20]), short);
        let mut longer = good();
        longer.push(0);
        assert_eq!(told(&longer), "it is 1 byte longer than its sizes say");
        let shorter = "it is 2 bytes shorter than its sizes say";
        assert_eq!(told(&longer[..188]), shorter);
    }

    #[test]
    fn the_first_number_that_is_wrong_is_told() {
        for (at, byte, what) in [
            (4, 9, "the directory's place is 9, in a sheet 8"),
            (8, 14, "the number of fields is 14, in a sheet 13"),
            (10, 254, "the tag of field 1 is 510, in a sheet 256"),
            (12, 3, "the type of 256 ImageWidth is 3, in a sheet 4"),
            (
                38,
                3,
                "the number of values of 258 BitsPerSample is 3, in a sheet 1",
            ),
            (18, 0, "it says 0 x 1 samples"),
            (42, 12, "258 BitsPerSample is 12, in a sheet 8, 16 or 32"),
            (54, 5, "259 Compression is 5, in a sheet 1"),
            (114, 3, "279 StripByteCounts is 3, in a sheet 4"),
            (
                166,
                8,
                "the place of a further directory is 8, in a sheet 0",
            ),
            (
                178,
                72,
                "the resolution at byte 178 is 72/1, in a sheet 1/1",
            ),
        ] {
            let mut bytes = good();
            bytes[at] = byte;
            assert_eq!(told(&bytes), what);
        }
    }
}

//! Sheets: of files with every number of bits, and sheets that are read, good ones and ones that are none.

use crate::questions::about;
use crate::step::Step;
use sample::parts::{self, Sizes};
use sample::Nd2;
use second::sheets::HEAD_BYTES;

/// Where some values stand in a sheet.
const WIDTH: usize = 18;
const HEIGHT: usize = 30;
const BITS: usize = 42;
const STRIP: usize = 78;
const ROWS: usize = 102;
const BYTES: usize = 114;
const FORMAT: usize = 162;
const NEXT: usize = 166;

pub fn all() -> Vec<Step> {
    let mut steps = Vec::new();
    for bits in [8, 16, 32] {
        steps.extend(written(bits));
    }
    steps.extend(bytes_changed());
    steps.extend(lengths());
    for (label, sheet) in rules() {
        steps.push(Step::Label(label.to_string()));
        steps.extend(both(sheet));
    }
    steps
}

fn file_of(sizes: Sizes) -> Vec<u8> {
    let rows: Vec<u8> = (1..=(sizes.stride * sizes.height) as u8).collect();
    let mut file = Nd2::new();
    file.add(parts::ATTRIBUTES, &parts::attributes(sizes).encode());
    file.add(parts::EXPERIMENT, &parts::experiment(&[]).encode());
    file.add(&parts::frame_name(0), &parts::frame(&rows));
    file.finish()
}

/// The sheet of a component of a file's first frame.
fn sheet_of(file: &[u8], c: u64) -> Vec<u8> {
    let summary = second::calls::opened(file, usize::MAX).unwrap_or_default();
    let samples = summary.attributes().plane_bytes().unwrap_or(0) as usize;
    let mut sheet = vec![0; HEAD_BYTES + samples];
    let number = second::sheet(file, &summary, 0, 0, c, 0, &mut sheet);
    assert_eq!(number, 0, "a file that was written here has sheets");
    sheet
}

/// The sheet of one plane of these sizes, without padding.
fn sheet(width: u64, height: u64, bits: u64) -> Vec<u8> {
    sheet_of(&file_of(Sizes::packed(width, height, 1, bits)), 0)
}

fn read(sheet: &[u8], buffer: usize) -> Step {
    Step::ReadSheet {
        sheet: sheet.to_vec(),
        buffer,
    }
}

/// Read with samples enough, and with none: what is no sheet is told before that.
fn both(sheet: Vec<u8>) -> [Step; 2] {
    let room = sheet.len().saturating_sub(HEAD_BYTES);
    [read(&sheet, room), read(&sheet, 0)]
}

/// Sheets of a file of two components with padded rows, with buffers that are enough, long and short, out of range, and
/// by a summary that is refused; then each of them read.
fn written(bits: u64) -> Vec<Step> {
    let mut sizes = Sizes::packed(3, 2, 2, bits);
    sizes.stride += 3;
    let file = file_of(sizes);
    let sheets = [0, 1].map(|c| sheet_of(&file, c));
    let enough = sheets[0].len();
    let asked = |c, buffer| Step::Sheet {
        at: [0, 0, c, 0],
        buffer,
    };
    let mut refused = second::calls::opened(&file, usize::MAX).unwrap_or_default();
    refused.bits = 24;
    let mut steps = about(&format!("sheets of {bits} bits"), file);
    for (c, buffer) in [
        (0, enough),
        (1, enough + 9),
        (1, enough - 1),
        (0, HEAD_BYTES),
        (0, 0),
        (2, enough),
    ] {
        steps.push(asked(c, buffer));
    }
    steps.extend([Step::Summary(refused), asked(0, enough)]);
    let samples = enough - HEAD_BYTES;
    for (sheet, room) in [(0, samples), (1, samples + 9), (1, samples - 1), (0, 0)] {
        steps.push(read(&sheets[sheet], room));
    }
    steps
}

/// Each byte before the samples changed, in a sheet of one sample.
fn bytes_changed() -> Vec<Step> {
    let good = sheet(1, 1, 8);
    let label = "a sheet of one sample, each byte before it changed";
    let mut steps = vec![Step::Label(label.to_string())];
    for at in 0..HEAD_BYTES {
        let mut changed = good.clone();
        changed[at] ^= 1 << (at % 8);
        steps.push(read(&changed, 1));
    }
    let mut sample = good;
    sample[HEAD_BYTES] ^= 255;
    steps.push(read(&sample, 1));
    steps
}

/// A sheet that is cut, and one that goes on.
fn lengths() -> Vec<Step> {
    let mut sheet = sheet(2, 2, 16);
    sheet.push(0);
    let whole = sheet.len() - 1;
    let mut steps = vec![Step::Label("a sheet of other lengths".to_string())];
    for len in [0, 1, 8, 10, 166, 185, 186, whole - 1, whole, whole + 1] {
        steps.push(read(&sheet[..len], 9));
    }
    steps
}

/// The sheet of 2 x 2 samples of 16 bits with other numbers at some places and so many bytes of samples.
fn but(changes: &[(usize, u32)], samples: usize) -> Vec<u8> {
    let mut sheet = sheet(2, 2, 16);
    for (at, number) in changes {
        sheet[*at..*at + 4].copy_from_slice(&number.to_le_bytes());
    }
    sheet.resize(HEAD_BYTES + samples, 7);
    sheet
}

/// Sheets in which several things were changed, each under its own label.
fn rules() -> Vec<(&'static str, Vec<u8>)> {
    let mut rules = zeros_and_bits();
    rules.extend(sizes_changed());
    rules.extend([
        ("a strip at byte 187", but(&[(STRIP, 187)], 9)),
        ("another directory", but(&[(NEXT, 8)], 8)),
    ]);
    rules
}

fn zeros_and_bits() -> Vec<(&'static str, Vec<u8>)> {
    vec![
        ("a width of 0", but(&[(WIDTH, 0), (BYTES, 0)], 0)),
        (
            "a height of 0",
            but(&[(HEIGHT, 0), (ROWS, 0), (BYTES, 0)], 0),
        ),
        ("bits of 0", but(&[(BITS, 0), (BYTES, 0)], 0)),
        ("bits of 24", but(&[(BITS, 24), (BYTES, 12)], 12)),
        ("bits of 64", but(&[(BITS, 64), (BYTES, 32)], 32)),
        (
            "32 bits as whole numbers",
            but(&[(BITS, 32), (BYTES, 16)], 16),
        ),
        ("16 bits as floats", but(&[(FORMAT, 3)], 8)),
        (
            "32 bits as floats",
            but(&[(BITS, 32), (FORMAT, 3), (BYTES, 16)], 16),
        ),
    ]
}

fn sizes_changed() -> Vec<(&'static str, Vec<u8>)> {
    let half = 1 << 31;
    let mut wraps = [WIDTH, HEIGHT, ROWS].map(|at| (at, half)).to_vec();
    wraps.extend([(BITS, 32), (FORMAT, 3), (BYTES, 0)]);
    vec![
        (
            "four samples in a row",
            but(&[(WIDTH, 4), (HEIGHT, 1), (ROWS, 1)], 8),
        ),
        (
            "four samples in a row, strips of two rows",
            but(&[(WIDTH, 4), (HEIGHT, 1)], 8),
        ),
        (
            "a larger width than there are samples",
            but(&[(WIDTH, 3), (BYTES, 12)], 8),
        ),
        ("bytes that are no whole rows", but(&[(BYTES, 9)], 9)),
        ("2^31 by 2^31 samples of 32 bits", but(&wraps, 0)),
        (
            "sizes of 2^32 - 1",
            but(&[WIDTH, HEIGHT, ROWS, BYTES].map(|at| (at, u32::MAX)), 8),
        ),
    ]
}

//! The proved reader, through its C interface: summaries and channel records go over as bytes.

use crate::reader::Reader;
use nd2::raw::{self, CHANNEL_BYTES, SUMMARY_BYTES};
use second::{Axis, Channel, Loop, Range, Sheet, Summary};

pub struct Proved;

fn axis_number(axis: Axis) -> u64 {
    match axis {
        Axis::T => 0,
        Axis::Z => 1,
        Axis::P => 2,
    }
}

fn axis(number: u64) -> Axis {
    match number {
        0 => Axis::T,
        1 => Axis::Z,
        _ => Axis::P,
    }
}

/// The bytes of a summary, as include/nd2.h has them.
fn laid(s: &Summary) -> Vec<u8> {
    let loops = s.loops.iter().flat_map(|l| [axis_number(l.axis), l.count]);
    let sizes = [s.depth, s.width, s.stride, s.height, s.components, s.bits];
    let words = loops.chain(sizes);
    let words = words.chain([s.map.start, s.map.len, s.calibration, s.class]);
    let mut bytes: Vec<u8> = words.flat_map(u64::to_le_bytes).collect();
    bytes.extend(
        [s.x, s.y, s.z]
            .iter()
            .flat_map(|f| f.to_bits().to_le_bytes()),
    );
    bytes.resize(SUMMARY_BYTES, 0);
    bytes
}

/// The words of eight bytes.
fn words(bytes: &[u8]) -> Vec<u64> {
    let word = |bytes: &[u8]| bytes.iter().rev().fold(0, |n, byte| n << 8 | *byte as u64);
    bytes.chunks_exact(8).map(word).collect()
}

fn summary(bytes: &[u8]) -> Summary {
    let w = words(bytes);
    let single = |at: usize| f32::from_bits((w[at / 2] >> (32 * (at % 2))) as u32);
    let one = |i: usize| Loop {
        axis: axis(w[2 * i]),
        count: w[2 * i + 1],
    };
    Summary {
        loops: [one(0), one(1), one(2)],
        depth: w[6],
        width: w[7],
        stride: w[8],
        height: w[9],
        components: w[10],
        bits: w[11],
        map: Range {
            start: w[12],
            len: w[13],
        },
        calibration: w[14],
        class: w[15],
        x: single(32),
        y: single(33),
        z: single(34),
    }
}

fn channel(record: &[u8]) -> Channel {
    let w = words(record);
    Channel {
        named: w[0],
        name: w[1],
        units: w[2],
        colored: w[3],
        red: w[4],
        green: w[5],
        blue: w[6],
    }
}

impl Reader for Proved {
    fn name(&self) -> &'static str {
        "proved"
    }

    fn open(&self, file: &[u8], table: &mut [u8]) -> Result<Summary, u32> {
        let mut bytes = [0xEE; SUMMARY_BYTES];
        match raw::open(file, table, &mut bytes) {
            0 => Ok(summary(&bytes)),
            number => {
                assert_eq!(bytes, [0; SUMMARY_BYTES], "a refused summary is zero");
                Err(number)
            }
        }
    }

    fn plane(&self, file: &[u8], summary: &Summary, at: [u64; 4], samples: &mut [u8]) -> u32 {
        raw::plane(file, &laid(summary), at, samples)
    }

    fn tree(&self, file: &[u8], summary: &Summary, name: &[u8], table: &mut [u8]) -> u32 {
        raw::tree(file, &laid(summary), name, table)
    }

    fn channels(
        &self,
        file: &[u8],
        summary: &Summary,
        table: &mut [u8],
        row: &mut [Channel],
    ) -> u32 {
        let mut bytes = vec![0xEE; row.len() * CHANNEL_BYTES];
        let number = raw::channels(file, &laid(summary), table, &mut bytes);
        let records = bytes.chunks_exact(CHANNEL_BYTES).map(channel);
        row.iter_mut()
            .zip(records)
            .for_each(|(place, record)| *place = record);
        number
    }

    fn register(&self, file: &[u8], summary: &Summary, buffer: &mut [u8]) -> u32 {
        raw::register(file, &laid(summary), buffer)
    }

    fn read_plane(&self, file: &[u8], table: &mut [u8], at: [u64; 4], samples: &mut [u8]) -> u32 {
        raw::read_plane(file, table, at, samples)
    }

    fn sheet(&self, file: &[u8], summary: &Summary, at: [u64; 4], sheet: &mut [u8]) -> u32 {
        raw::sheet(file, &laid(summary), at, sheet)
    }

    fn read_sheet(&self, sheet: &[u8], samples: &mut [u8]) -> Result<Sheet, u32> {
        let mut sizes = [u64::MAX; 3];
        let number = raw::read_sheet(sheet, samples, &mut sizes);
        let [width, height, bits] = sizes;
        if number != 0 {
            assert_eq!(sizes, [0; 3], "the sizes of a refused sheet are zero");
            return Err(number);
        }
        Ok(Sheet {
            width,
            height,
            bits,
        })
    }

    fn picometres(&self, file: &[u8], summary: &Summary, table: &mut [u8]) -> (u32, u64) {
        let mut picometres = u64::MAX;
        let number = raw::picometres(file, &laid(summary), table, &mut picometres);
        (number, picometres)
    }
}

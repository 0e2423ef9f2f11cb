//! The size of a pixel in whole picometres, through the library.

use nd2::{Reader, Refusal};
use sample::parts::{self, CALIBRATION};
use sample::pixel::{self, DOUBLES, FIELD, LIMIT};
use sample::tree::{bytes, f64, flag, i32, i64, level, list, packed, raw, text, u32, u64, Record};
use sample::{Nd2, Rng, Roller};

const MISSING: Result<u64, Refusal> = Err(Refusal::MISSING);
const RANGE: Result<u64, Refusal> = Err(Refusal::SIZE_RANGE);

fn of_file(file: &[u8]) -> Result<u64, Refusal> {
    Reader::open(file).unwrap().picometres()
}

fn of_double(bits: u64) -> Result<u64, Refusal> {
    of_file(&pixel::with_double(bits))
}

fn of(record: Record) -> Result<u64, Refusal> {
    of_file(&pixel::with(vec![record]))
}

fn of_size(size: f64) -> Result<u64, Refusal> {
    of_double(size.to_bits())
}

#[test]
fn rollers() {
    for (pixel, picometres) in [(0.325, 325_000), (0.1625, 162_500), (0.65, 650_000)] {
        let roller = Roller {
            pixel,
            ..Roller::new(2, 2, 1, 3, 2)
        };
        assert_eq!(of_file(&roller.file()), Ok(picometres));
    }
}

#[test]
fn halves_go_to_the_even_number() {
    for (odd, picometres) in [(1, 7_812), (3, 23_438), (5, 39_062), (7, 54_688)] {
        assert_eq!(of_size(f64::from(odd) / 128.0), Ok(picometres));
    }
    assert_eq!(of_double(LIMIT - 7), Ok(18_446_744_073_709_523_438));
    assert_eq!(of_double(LIMIT - 3), Ok(18_446_744_073_709_539_062));
}

#[test]
fn limits() {
    assert_eq!(of_double(1), Ok(0));
    let half = 5e-7f64.to_bits();
    let around = [half - 1, half, half + 1].map(of_double);
    assert_eq!(around, [Ok(0), Ok(0), Ok(1)]);
    assert_eq!(of_double(LIMIT), Ok(18_446_744_073_709_550_781));
    assert_eq!(of_double(LIMIT + 1), RANGE);
    assert_eq!(of_size(f64::MAX), RANGE);
    assert_eq!(of_size(f64::INFINITY), RANGE);
    for none in [
        0.0,
        -0.0,
        -1.0,
        -f64::MIN_POSITIVE,
        f64::NEG_INFINITY,
        f64::NAN,
    ] {
        assert_eq!(of_size(none), MISSING, "{none}");
    }
}

#[test]
fn whole_numbers_and_flags() {
    let most = 18_446_744_073_709;
    assert_eq!(of(u64(FIELD, most)), Ok(most * 1_000_000));
    assert_eq!(of(i64(FIELD, most as i64)), Ok(most * 1_000_000));
    assert_eq!(of(u64(FIELD, most + 1)), RANGE);
    assert_eq!(of(u64(FIELD, u64::MAX)), RANGE);
    assert_eq!(of(i32(FIELD, 3)), Ok(3_000_000));
    assert_eq!(of(u32(FIELD, u32::MAX)), Ok(4_294_967_295_000_000));
    assert_eq!(of(flag(FIELD, 2)), Ok(1_000_000));
    for none in [
        i32(FIELD, -1),
        i64(FIELD, i64::MIN),
        u64(FIELD, 0),
        flag(FIELD, 0),
    ] {
        assert_eq!(of(none), MISSING);
    }
}

#[test]
fn what_is_no_size() {
    let half = || f64(FIELD, 0.5);
    for record in [
        text(FIELD, "0.5"),
        bytes(FIELD, &[0; 8]),
        list(FIELD, vec![half()]),
        level(FIELD, vec![half()]),
        f64("dAspect", 1.0),
    ] {
        assert_eq!(of(record), MISSING);
    }
    let other = pixel::calibrated(&level("SLxOther", vec![half()]));
    assert_eq!(of_file(&other), MISSING);
}

/// A file with this calibration, whose map leads so many bytes behind its chunk.
fn elsewhere(calibration: &[u8], behind: u64) -> Vec<u8> {
    let mut file = Nd2::new();
    let sizes = parts::Sizes::packed(1, 1, 1, 8);
    file.add(parts::ATTRIBUTES, &parts::attributes(sizes).encode());
    file.add(parts::EXPERIMENT, &parts::experiment(&[]).encode());
    file.add(CALIBRATION, calibration);
    file.entries[2].offset += behind;
    file.finish()
}

#[test]
fn trees_that_cannot_be_read() {
    let good = parts::calibration(0.5).encode();
    assert_eq!(of_file(&elsewhere(&good, 0)), Ok(500_000));
    assert_eq!(of_file(&elsewhere(&good, 1)), Err(Refusal::CHUNK));
    let cut = &good[..good.len() - 1];
    assert_eq!(of_file(&elsewhere(cut, 0)), Err(Refusal::CUT));
    let then = |record: Record| {
        let records = vec![f64(FIELD, f64::INFINITY), record];
        of_file(&pixel::calibrated(&level("SLxCalibration", records)))
    };
    assert_eq!(then(u32("a", 1)), RANGE);
    assert_eq!(then(packed(&[0; 12])), Err(Refusal::PACKED));
    assert_eq!(then(raw(12, "", &[])), Err(Refusal::KIND));
    let deep = (0..65).fold(level("", vec![]), |inner, _| level("", vec![inner]));
    assert_eq!(then(deep), Err(Refusal::DEEP));
    let mut many = level("", vec![]);
    many.level_mut().unwrap().count = Some(10_000_001);
    assert_eq!(then(many), Err(Refusal::LEVEL));
    let roller = sample::roller(1, 1, 1, 1, 1);
    let chunk = CALIBRATION.as_bytes();
    let found = roller.windows(chunk.len()).rposition(|part| part == chunk);
    let mut without = roller.clone();
    without[found.unwrap()] = b'X';
    assert_eq!(
        (of_file(&roller), of_file(&without)),
        (Ok(325_000), MISSING)
    );
}

/// The table grows: the calibration has more entries than the first table.
#[test]
fn a_calibration_of_many_records() {
    let mut records: Vec<Record> = (0..3000).map(|i| u32(&format!("a{i}"), i)).collect();
    records.push(f64(FIELD, 0.25));
    let file = pixel::calibrated(&level("SLxCalibration", records));
    assert_eq!(of_file(&file), Ok(250_000));
}

/// The value that a name has in the end.
#[test]
fn repeated_names() {
    let of = |last: Record| of_file(&pixel::with(vec![f64(FIELD, 0.5), last]));
    assert_eq!(of(f64(FIELD, 0.25)), Ok(250_000));
    assert_eq!(of(f64(FIELD, f64::INFINITY)), RANGE);
    assert_eq!(of(text(FIELD, "0.25")), MISSING);
    assert_eq!(of(f64("dAspect", 0.25)), Ok(500_000));
}

/// What the second implementation gives for a file.
fn second(file: &[u8]) -> Result<u64, u32> {
    let summary = second::calls::opened(file, usize::MAX).unwrap();
    match second::picometres(file, &summary, &mut [0; 960]) {
        (0, picometres) => Ok(picometres),
        (refused, _) => Err(refused),
    }
}

/// Named doubles, those around each power of two, random ones, and what is no double.
#[test]
fn as_the_second_implementation() {
    let rng = &mut Rng::new(1);
    let named = DOUBLES.into_iter().map(|(_, bits)| bits);
    let random = (0..5_000).map(|_| pixel::random(rng));
    for bits in named.chain(pixel::powers()).chain(random) {
        let file = pixel::with_double(bits);
        let ours = of_file(&file).map_err(Refusal::number);
        assert_eq!(ours, second(&file), "{bits:x}");
    }
    for (label, records) in pixel::others() {
        let file = pixel::with(records);
        let ours = of_file(&file).map_err(Refusal::number);
        assert_eq!(ours, second(&file), "{label}");
    }
}

//! Change request 5: exact sizes, halves, limits, and every refusal in its order.

mod common;

use common::{of_trees, opened, with_more};
use sample::parts::{self, CALIBRATION};
use sample::pixel::{self, DOUBLES, FIELD, LIMIT};
use sample::tree::{
    bytes, double_bits, f64, flag, i32, i64, level, list, packed, pointer, raw, text, u32, u64,
    Record,
};
use sample::Rng;
use second::picometres::rounded;
use second::trees::ENTRY_BYTES;
use second::values::Value;
use second::Summary;

const MISSING: Result<u64, u32> = Err(11);
const RANGE: Result<u64, u32> = Err(28);

/// The call with a table of so many bytes, which are zero afterwards; what is refused has no picometres.
fn lent(file: &[u8], summary: &Summary, len: usize) -> Result<u64, u32> {
    let mut table = vec![0xA5; len];
    let answer = second::picometres(file, summary, &mut table);
    assert!(table.iter().all(|&byte| byte == 0), "the table is not zero");
    match answer {
        (0, picometres) => Ok(picometres),
        (refused, picometres) => {
            assert_eq!(picometres, 0, "refused, and not 0 picometres");
            Err(refused)
        }
    }
}

/// The picometres of a file that opens, with table enough.
fn of_file(file: &[u8]) -> Result<u64, u32> {
    lent(file, &opened(file), 48 * (file.len() / 2) + 5)
}

fn of_tree(calibration: Record) -> Result<u64, u32> {
    of_file(&with_more(&[(CALIBRATION, calibration)]))
}

fn of(record: Record) -> Result<u64, u32> {
    of_file(&pixel::with(vec![record]))
}

/// The answer for each of the sample's doubles, in its order.
const ANSWERS: [Result<u64, u32>; 37] = [
    Ok(100_000),
    Ok(162_500),
    Ok(325_000),
    Ok(1_000_000),
    Ok(123_456_789),
    // 7812.5, 23437.5 and 39062.5
    Ok(7_812),
    Ok(23_438),
    Ok(39_062),
    Ok(33_554_431_992_188),
    Ok(33_554_432_007_812),
    Ok(18_446_744_073_709_523_438),
    Ok(18_446_744_073_709_539_062),
    Ok(0),
    Ok(0),
    Ok(1),
    Ok(1),
    Ok(2),
    Ok(2),
    Ok(3),
    Ok(8_796_093_022_208_000_000),
    Ok(17_592_186_044_416_000_000),
    RANGE,
    Ok(18_446_744_073_709_550_781),
    RANGE,
    RANGE,
    RANGE,
    RANGE,
    RANGE,
    Ok(0),
    Ok(0),
    MISSING,
    MISSING,
    MISSING,
    MISSING,
    MISSING,
    MISSING,
    MISSING,
];

#[test]
fn doubles() {
    for ((name, bits), answer) in DOUBLES.into_iter().zip(ANSWERS) {
        assert_eq!(of_file(&pixel::with_double(bits)), answer, "{name}");
        assert_eq!(of(f64(FIELD, f64::from_bits(bits))), answer, "{name}");
    }
}

/// A half is left by an odd number of 128ths: 15,625 times it over 2.
#[test]
fn halves_go_to_the_even_number() {
    let rng = &mut Rng::new(1);
    for _ in 0..2000 {
        let odd = rng.word() >> rng.between(14, 63) | 1;
        let below = 15625 * odd / 2;
        let picometres = below + below % 2;
        let double = Value::Double(odd as f64 / 128.0);
        assert_eq!(rounded(&double), Ok(picometres), "{odd}");
    }
}

/// Doubles from 2^-10 up to the limit: the answer is within half a picometre, and even where it is just that far.
#[test]
fn nearest() {
    let rng = &mut Rng::new(2);
    for _ in 0..20_000 {
        let units = u128::from(1 << 52 | rng.word() >> 12);
        let below = rng.between(8, 62);
        let bits = (1075 - below) << 52 | units as u64 & ((1 << 52) - 1);
        let Ok(answer) = rounded(&Value::Double(f64::from_bits(bits))) else {
            assert!(bits > LIMIT, "{bits:x}");
            continue;
        };
        // picometres and the size, both in halves of 2^-below picometres
        let (ours, exact) = ((answer as u128) << (below + 1), units * 2_000_000);
        let apart = ours.abs_diff(exact);
        let half = 1 << below;
        assert!(apart < half || apart == half && answer % 2 == 0, "{bits:x}");
        assert!(bits <= LIMIT);
    }
}

/// Of two doubles the larger one has at least as many picometres; past the range it has none.
#[test]
fn monotone() {
    let rng = &mut Rng::new(3);
    let rank = |bits: u64| match rounded(&Value::Double(f64::from_bits(bits))) {
        Ok(picometres) => u128::from(picometres),
        refused => {
            assert_eq!(refused, RANGE);
            1 << 64
        }
    };
    for _ in 0..20_000 {
        let one = pixel::random(rng) & (u64::MAX >> 1);
        let other = (one + rng.below(3)).max(pixel::random(rng) & (u64::MAX >> 1));
        let infinity = f64::INFINITY.to_bits();
        let (one, other) = (one.clamp(1, infinity), other.clamp(1, infinity));
        let (low, high) = (one.min(other), one.max(other));
        assert!(rank(low) <= rank(high), "{low:x} {high:x}");
    }
}

#[test]
fn around_every_power_of_two() {
    let all = pixel::powers();
    let answers: Vec<_> = all
        .iter()
        .map(|&b| rounded(&Value::Double(f64::from_bits(b))))
        .collect();
    let (accepted, past): (Vec<_>, Vec<_>) = all[1..]
        .iter()
        .zip(&answers[1..])
        .partition(|(_, a)| a.is_ok());
    assert_eq!(answers[0], MISSING);
    assert!(accepted.iter().all(|(bits, _)| **bits <= LIMIT));
    assert!(past
        .iter()
        .all(|(bits, answer)| **bits > LIMIT && **answer == RANGE));
    assert!(accepted.windows(2).all(|two| two[0].1 <= two[1].1));
    // 2^44, the last one, and its neighbours, 2^-8 or half of it apart
    let last: Vec<u64> = accepted
        .iter()
        .rev()
        .take(5)
        .map(|(_, a)| a.unwrap())
        .collect();
    let steps = [7_812, 3_906, 0].map(|step| 17_592_186_044_416_000_000 + step);
    assert_eq!(last[..3], steps);
    assert_eq!(
        last[3..],
        [1_953, 3_906].map(|step| 17_592_186_044_416_000_000 - step)
    );
}

#[test]
fn whole_numbers() {
    let kinds: [fn(&str, i32) -> Record; 2] = [i32, |name, n| i64(name, n.into())];
    for one in kinds {
        assert_eq!(of(one(FIELD, 1)), Ok(1_000_000));
        assert_eq!(of(one(FIELD, i32::MAX)), Ok(2_147_483_647_000_000));
        for none in [0, -1, i32::MIN] {
            assert_eq!(of(one(FIELD, none)), MISSING);
        }
    }
    assert_eq!(of(i64(FIELD, i64::MIN)), MISSING);
    assert_eq!(of(u32(FIELD, 1)), Ok(1_000_000));
    assert_eq!(of(u32(FIELD, u32::MAX)), Ok(4_294_967_295_000_000));
    assert_eq!(of(u32(FIELD, 0)), MISSING);
    for long in [u64, pointer] {
        assert_eq!(of(long(FIELD, 1)), Ok(1_000_000));
        assert_eq!(of(long(FIELD, 0)), MISSING);
        assert_eq!(of(long(FIELD, u64::MAX)), RANGE);
    }
}

#[test]
fn whole_numbers_at_the_limit() {
    let most = 18_446_744_073_709;
    let kinds: [fn(&str, u64) -> Record; 3] = [u64, pointer, |name, n| i64(name, n as i64)];
    for long in kinds {
        assert_eq!(of(long(FIELD, most)), Ok(18_446_744_073_709_000_000));
        for past in [most + 1, 1 << 53, (1 << 53) + 1, i64::MAX as u64] {
            assert_eq!(of(long(FIELD, past)), RANGE);
        }
    }
}

#[test]
fn flags() {
    assert_eq!(of(flag(FIELD, 1)), Ok(1_000_000));
    assert_eq!(of(flag(FIELD, 7)), Ok(1_000_000));
    assert_eq!(of(flag(FIELD, 0)), MISSING);
}

/// A whole number that is rounded to a double first has the same answer.
#[test]
fn whole_numbers_as_doubles() {
    let rng = &mut Rng::new(4);
    for _ in 0..5_000 {
        let number = rng.word() >> rng.below(64);
        let exact = rounded(&Value::Whole(number.into()));
        assert_eq!(exact, rounded(&Value::Double(number as f64)), "{number}");
    }
}

#[test]
fn no_number() {
    let inner = || f64(FIELD, 0.5);
    for record in [
        text(FIELD, "0.5"),
        bytes(FIELD, &[0; 8]),
        level(FIELD, vec![inner()]),
        list(FIELD, vec![inner()]),
        f64("dAspect", 0.5),
    ] {
        assert_eq!(of(record), MISSING);
    }
    let named = |name: &str| of_tree(level(name, vec![inner()]));
    assert_eq!(named("SLxCalibration"), Ok(500_000));
    assert_eq!(named("SLxCalibrations"), MISSING);
    assert_eq!(of_tree(level("SLxCalibration", vec![])), MISSING);
    assert_eq!(of_tree(f64("SLxCalibration", 0.5)), MISSING);
    // a level whose only record is unnamed is a list
    assert_eq!(of_tree(list("SLxCalibration", vec![inner()])), MISSING);
    let deeper = level("SLxCalibration", vec![inner()]);
    assert_eq!(of_tree(level("SLxCalibration", vec![deeper])), MISSING);
}

/// The value that a name has in the end.
#[test]
fn repeated_names() {
    let of = |records: Vec<Record>| of_tree(level("SLxCalibration", records));
    let (half, one) = (|| f64(FIELD, 0.5), || u32(FIELD, 1));
    assert_eq!(of(vec![half(), one()]), Ok(1_000_000));
    assert_eq!(of(vec![one(), half()]), Ok(500_000));
    assert_eq!(of(vec![half(), text(FIELD, "0.5")]), MISSING);
    assert_eq!(of(vec![half(), f64(FIELD, f64::INFINITY)]), RANGE);
}

/// A file with just this calibration, a summary for it, and where its tree is.
fn bare(data: &[u8]) -> (Vec<u8>, Summary) {
    let mut file = of_trees(&[]);
    file.add(CALIBRATION, data);
    let file = file.finish();
    let summary = Summary {
        width: 1,
        stride: 1,
        height: 1,
        components: 1,
        bits: 8,
        map: second::map::place(&file).unwrap(),
        ..Summary::default()
    };
    (file, summary)
}

fn of_bytes(data: &[u8]) -> Result<u64, u32> {
    let (file, summary) = bare(data);
    lent(&file, &summary, 100 * ENTRY_BYTES)
}

#[test]
fn trees_that_are_refused() {
    let good = parts::calibration(0.5).encode();
    assert_eq!(of_bytes(&good), Ok(500_000));
    assert_eq!(of_bytes(&good[..good.len() - 1]), Err(6));
    assert_eq!(of_bytes(&[12, 0]), Err(7));
    assert_eq!(of_bytes(&packed(&[0; 12]).encode()), Err(8));
    let deep = (0..65).fold(level("", vec![]), |inner, _| level("", vec![inner]));
    assert_eq!(of_bytes(&deep.encode()), Err(9));
    let mut many = parts::calibration(0.5);
    many.level_mut().unwrap().count = Some(10_000_001);
    assert_eq!(of_bytes(&many.encode()), Err(10));
    assert_eq!(of_bytes(&[]), MISSING);
    // the tree comes before what is in it
    let then = |size: f64, record: Record| {
        let records = vec![f64(FIELD, size), record];
        of_bytes(&level("SLxCalibration", records).encode())
    };
    for size in [0.5, -1.0, f64::INFINITY] {
        assert_eq!(then(size, packed(&[])), Err(8));
        assert_eq!(then(size, raw(10, "", &[])), Err(7));
    }
}

#[test]
fn tables() {
    let size = double_bits(FIELD, f64::INFINITY.to_bits());
    let tree = level("SLxCalibration", vec![u32("a", 1), f64(FIELD, 0.5)]);
    let (file, summary) = bare(&tree.encode());
    for len in [0, 1, 47, 48, 2 * ENTRY_BYTES, 3 * ENTRY_BYTES - 1] {
        assert_eq!(lent(&file, &summary, len), Err(18), "{len}");
    }
    for len in [3 * ENTRY_BYTES, 3 * ENTRY_BYTES + 1, 5 * ENTRY_BYTES] {
        assert_eq!(lent(&file, &summary, len), Ok(500_000), "{len}");
    }
    // 18 before 28 and before 11, and what is wrong behind the entries that have room is not seen
    for record in [size, f64(FIELD, -1.0), packed(&[])] {
        let mut records = vec![u32("a", 1), u32("b", 1)];
        records.push(record);
        let (file, summary) = bare(&level("SLxCalibration", records).encode());
        assert_eq!(lent(&file, &summary, 2 * ENTRY_BYTES), Err(18));
        let whole = lent(&file, &summary, 4 * ENTRY_BYTES);
        assert!([RANGE, MISSING, Err(8)].contains(&whole), "{whole:?}");
    }
}

#[test]
fn map_and_chunk() {
    let table = 20 * ENTRY_BYTES;
    let (file, good) = bare(&parts::calibration(0.5).encode());
    assert_eq!(lent(&file, &good, table), Ok(500_000));
    let mut other = good;
    other.map.len -= 1;
    assert_eq!(lent(&file, &other, table), Err(5));
    other.bits = 7;
    assert_eq!(lent(&file, &other, table), Err(20), "20 before 5");
    other = good;
    other.map.start = u64::MAX;
    assert_eq!(lent(&file, &other, table), Err(20));
    assert_eq!(lent(&file, &Summary::default(), table), Err(20));
    // no such chunk, or an entry that leads to none
    assert_eq!(of_file(&with_more(&[])), MISSING);
    let mut elsewhere = of_trees(&[(CALIBRATION, parts::calibration(0.5))]);
    elsewhere.entries[0].offset += 1;
    let elsewhere = elsewhere.finish();
    assert_eq!(lent(&elsewhere, &good, 0), Err(4), "4 before 18");
    let mut renamed = of_trees(&[(CALIBRATION, parts::calibration(0.5))]);
    renamed.entries[0].name[20] = b'?';
    renamed.entries[0].offset += 1;
    renamed.entries[0].name.push(b'!');
    let renamed = renamed.finish();
    let summary = Summary {
        map: second::map::place(&renamed).unwrap(),
        ..good
    };
    assert_eq!(lent(&renamed, &summary, 0), MISSING);
}

/// Random files give each number that the call has, but for 20; with these summaries there is none.
#[test]
fn random_files() {
    let mut counts = [0; 30];
    for seed in 0..4000 {
        let file = sample::random::file(seed);
        let Ok(map) = second::map::place(&file) else {
            continue;
        };
        let (_, probe) = bare(&[]);
        let summary = Summary { map, ..probe };
        let table = if seed % 8 == 0 {
            ENTRY_BYTES
        } else {
            1000 * ENTRY_BYTES
        };
        let answer = lent(&file, &summary, table);
        counts[answer.err().unwrap_or(0) as usize] += 1;
    }
    let given: Vec<usize> = (0..30).filter(|&number| counts[number] > 0).collect();
    assert_eq!(given, [0, 4, 5, 6, 7, 8, 9, 10, 11, 18, 28, 29]);
    assert!(counts[0] > 1000 && counts[28] > 100, "{counts:?}");
}

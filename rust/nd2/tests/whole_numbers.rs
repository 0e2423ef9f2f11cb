//! Doubles in fields that are read as whole numbers: one with a fraction, or outside the field's range, is as good as not
//! there.

use nd2::{Axis, Loop, Reader, Refusal, Summary};
use sample::whole::{DOUBLES, FIELDS};

/// The file with this double in the field of a label.
fn with(label: &str, double: f64) -> Vec<u8> {
    let field = FIELDS.iter().find(|field| field.label == label);
    field.unwrap().with_double(double.to_bits())
}

fn opened(label: &str, double: f64) -> Result<Summary, Refusal> {
    Reader::open(&with(label, double)).map(|reader| reader.summary().clone())
}

#[test]
fn sizes_and_compression() {
    let width = |double| opened("uiWidth", double).map(|s| s.width);
    assert_eq!(width(2.0), Ok(2));
    assert_eq!(width(18_446_744_073_709_549_568.0), Ok(u64::MAX - 2047));
    assert_eq!(width(-0.0), Err(Refusal::FRAME_SHAPE));
    for double in [2.5, 18_446_744_073_709_551_616.0, -1.0, f64::NAN] {
        assert_eq!(width(double), Err(Refusal::MISSING));
    }
    assert!(opened("eCompression", 2.0).is_ok());
    for double in [2.9, 1.9, f64::INFINITY] {
        assert_eq!(opened("eCompression", double), Err(Refusal::COMPRESSION));
    }
}

#[test]
fn loops() {
    let loops = |label, double| opened(label, double).map(|s| s.loops);
    let of = |axis, count| Loop { axis, count };
    assert_eq!(
        loops("eType", 2.0),
        Ok(vec![of(Axis::P, 3), of(Axis::T, 2)])
    );
    assert_eq!(loops("eType", 1.5), Ok(Vec::new()));
    assert_eq!(loops("uiCount", 3.0), Ok(vec![of(Axis::T, 3)]));
    assert_eq!(loops("uiCount", 3.5), Ok(Vec::new()));
    assert_eq!(loops("pItemValid", 1.0), Ok(vec![of(Axis::P, 2)]));
    assert_eq!(loops("pItemValid", 1.5), Ok(vec![of(Axis::P, 1)]));
}

/// The names of a file's three components.
fn names(double: f64) -> [Option<String>; 3] {
    let file = with("uiCompCount", double);
    let channels = Reader::open(&file).unwrap().channels().unwrap();
    <[nd2::Channel; 3]>::try_from(channels)
        .unwrap()
        .map(|c| c.name)
}

#[test]
fn channels() {
    let [a, b] = ["a", "b"].map(|name| Some(name.to_string()));
    assert_eq!(names(2.0), [a.clone(), a.clone(), b.clone()]);
    assert_eq!(names(2.9), [a, b, None]);
}

/// Every field and every double at a limit: what the second implementation gives.
#[test]
fn as_the_second_implementation() {
    for field in &FIELDS {
        for (label, bits) in DOUBLES {
            let file = field.with_double(bits);
            let second = second::calls::opened(&file, usize::MAX);
            let ours = Reader::open(&file);
            let told = ours.as_ref().map_err(|refusal| refusal.number());
            let sizes = told.map(|r| (r.summary().width, r.summary().loops.len() as u64));
            let expected = second.map(|s| (s.width, s.depth));
            assert_eq!(sizes, expected, "{} {label}", field.label);
        }
    }
}

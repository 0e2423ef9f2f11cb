//! Which files are left out of the comparison with the original, and how many random ones are.

use plan::doubles::not_whole;
use sample::parts::{self, Sizes};
use sample::tree::{f64, level, list, raw, u32, Record};
use sample::whole::{Field, DOUBLES, FIELDS};
use sample::Nd2;
use std::collections::BTreeSet;

/// The doubles that are whole numbers of a field's range.
fn taken(field: &Field) -> [&'static str; 4] {
    match field.signed {
        true => ["2^53 + 2", "-2^63", "-0.0", "-0.0"],
        false => ["2^53 + 2", "2^63", "2^64 - 2048", "-0.0"],
    }
}

/// The name of a field in a tree: its label up to a space, and behind a point.
fn name(field: &Field) -> &'static str {
    let first = field.label.split(' ').next();
    first.and_then(|f| f.split('.').next_back()).unwrap_or("")
}

#[test]
fn doubles_that_are_not_taken() {
    for field in &FIELDS {
        for (label, bits) in DOUBLES {
            let found = not_whole(&field.with_double(bits));
            let expected = match taken(field).contains(&label) {
                true => Vec::new(),
                false => vec![name(field)],
            };
            assert_eq!(found, expected, "{} {label}", field.label);
        }
    }
}

#[test]
fn files_that_stay() {
    let none: [&str; 0] = [];
    for field in &FIELDS {
        let usual = f64::from(field.usual).to_bits();
        assert_eq!(not_whole(&field.with_double(usual)), none);
        assert_eq!(not_whole(&field.with_whole(2)), none);
        assert_eq!(not_whole(&field.without()), none);
    }
    assert_eq!(not_whole(&sample::roller(2, 2, 2, 2, 2)), none);
    assert_eq!(not_whole(&[]), none);
}

/// A file with this experiment and the usual attributes.
fn with(experiment: Vec<u8>) -> Vec<u8> {
    let mut file = Nd2::new();
    let attributes = parts::attributes(Sizes::packed(1, 1, 1, 8));
    file.add(parts::ATTRIBUTES, &attributes.encode());
    file.add(parts::EXPERIMENT, &experiment);
    file.finish()
}

fn of(records: Vec<Record>) -> Vec<&'static str> {
    not_whole(&with(level("SLxExperiment", records).encode()))
}

#[test]
fn what_is_looked_at() {
    let none: [&str; 0] = [];
    let half = |name: &str| f64(name, 0.5);
    // wherever the name is in the tree, and more than once
    let deep = level("a", vec![list("b", vec![level("", vec![half("eType")])])]);
    assert_eq!(of(vec![half("uiCount"), deep]), ["uiCount", "eType"]);
    // the value that a name has in the end
    assert_eq!(of(vec![half("eType"), u32("eType", 1)]), none);
    assert_eq!(of(vec![u32("eType", 1), half("eType")]), ["eType"]);
    // elements of the list, and no other doubles
    assert_eq!(of(vec![list("pItemValid", vec![half("")])]), ["pItemValid"]);
    assert_eq!(of(vec![level("pItemValid", vec![half("a")])]), none);
    assert_eq!(of(vec![half("pItemValid"), half("dZStep")]), none);
    // fields of other trees
    assert_eq!(of(vec![half("uiWidth"), half("uiColor")]), none);
    // a tree that is refused has no values
    assert_eq!(of(vec![half("eType"), raw(12, "", &[])]), none);
}

#[test]
fn whole_numbers_past_u32_stay() {
    let none: [&str; 0] = [];
    for field in FIELDS.iter().filter(|field| !field.signed) {
        let bits = 4_294_967_296f64.to_bits();
        assert_eq!(not_whole(&field.with_double(bits)), none);
    }
}

/// A few of the random files are left out, and for each of the fields.
#[test]
fn random_files() {
    const FILES: u64 = 4000;
    let mut fields = BTreeSet::new();
    let mut files = 0;
    for seed in 1..=FILES {
        let found = not_whole(&sample::random::file(seed));
        files += !found.is_empty() as u64;
        fields.extend(found);
    }
    assert!((3 * FILES / 100..=8 * FILES / 100).contains(&files));
    let all: BTreeSet<&str> = FIELDS.iter().map(name).collect();
    assert_eq!(fields, all);
}

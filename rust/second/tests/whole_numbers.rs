//! Change request 4, over every field that is read as a whole number: a double there is what the whole number would be
//! that it is, or, if it is none of the field's range, what a file without the field gives.

mod common;

use common::*;
use sample::whole::{Field, DOUBLES, FIELDS, PREFERRED};
use second::{Axis, Channel, Summary};

/// A field, what is told of a file that opens, what a file without the field gives, and what the doubles give that are
/// taken there; a number is a refusal. Every other double has to give what no field gives.
struct Row {
    label: &'static str,
    told: fn(&[u8], &Summary) -> String,
    absent: &'static str,
    taken: &'static [(&'static str, &'static str)],
}

static ROWS: [Row; 15] = [
    Row {
        label: "uiWidth",
        told: |_, s| s.width.to_string() + " wide",
        absent: "11",
        taken: &[
            ("usual", "2 wide"),
            ("-0.0", "14"),
            ("2^53 + 2", "9007199254740994 wide"),
            ("2^63", "9223372036854775808 wide"),
            ("2^64 - 2048", "18446744073709549568 wide"),
        ],
    },
    Row {
        label: "uiWidthBytes",
        told: |_, s| s.stride.to_string() + " a row",
        absent: "11",
        taken: &[
            ("usual", "2 a row"),
            ("-0.0", "14"),
            ("2^53 + 2", "9007199254740994 a row"),
            ("2^63", "9223372036854775808 a row"),
            ("2^64 - 2048", "18446744073709549568 a row"),
        ],
    },
    Row {
        label: "uiHeight",
        told: |_, s| s.height.to_string() + " high",
        absent: "11",
        taken: &[
            ("usual", "2 high"),
            ("-0.0", "14"),
            ("2^53 + 2", "9007199254740994 high"),
            ("2^63", "9223372036854775808 high"),
            ("2^64 - 2048", "18446744073709549568 high"),
        ],
    },
    Row {
        label: "uiComp",
        told: |_, s| s.components.to_string() + " components",
        absent: "11",
        taken: &[
            ("usual", "2 components"),
            ("-0.0", "14"),
            ("2^53 + 2", "14"),
            ("2^63", "14"),
            ("2^64 - 2048", "14"),
        ],
    },
    // What is past u32 is absent there.
    Row {
        label: "uiBpcInMemory",
        told: |_, s| s.bits.to_string() + " bits",
        absent: "11",
        taken: &[("usual", "16 bits"), ("-0.0", "13")],
    },
    // What is not 2 gives 12 as well.
    Row {
        label: "eCompression",
        told: |_, _| "opens".to_string(),
        absent: "12",
        taken: &[("usual", "opens")],
    },
    // No loop, and none below it; below 0 is a type that is refused.
    Row {
        label: "eType",
        told: loops,
        absent: "no loop",
        taken: &[("usual", "P 3, T 2"), ("-2^63", "15")],
    },
    // Absent, it counts 0: no loop.
    Row {
        label: "uiCount",
        told: loops,
        absent: "no loop",
        taken: &[
            ("usual", "T 2"),
            ("2^53 + 2", "16"),
            ("2^63", "16"),
            ("2^64 - 2048", "16"),
        ],
    },
    // Not valid.
    Row {
        label: "pItemValid",
        told: loops,
        absent: "P 1",
        taken: &[
            ("usual", "P 2"),
            ("2^53 + 2", "P 2"),
            ("2^63", "P 2"),
            ("2^64 - 2048", "P 2"),
        ],
    },
    // uiCount in its place, which is 3: the loop below is there.
    Row {
        label: "pPlanes.uiCount",
        told: loops,
        absent: "T 2",
        taken: &[
            ("-0.0", "no loop"),
            ("2^53 + 2", "16"),
            ("2^63", "16"),
            ("2^64 - 2048", "16"),
        ],
    },
    // The search goes on below.
    Row {
        label: "eType of z",
        told: z,
        absent: "class 1, 0.25",
        taken: &[("usual", "class 1, 0.5")],
    },
    // Absent, it counts 0: the search goes on below.
    Row {
        label: "uiCount of z",
        told: z,
        absent: "class 1, 0.25",
        taken: &[
            ("usual", "class 1, 20"),
            ("2^53 + 2", "class 2, 0"),
            ("2^63", "class 2, 0"),
            ("2^64 - 2048", "class 2, 0"),
        ],
    },
    // No colour, as where it is past u32.
    Row {
        label: "uiColor",
        told: colour,
        absent: "none",
        taken: &[("usual", "2 0 0"), ("-0.0", "0 0 0")],
    },
    // One component, as for 0.
    Row {
        label: "uiCompCount",
        told: names,
        absent: "ab-",
        taken: &[
            ("usual", "aab"),
            ("2^53 + 2", "aaa"),
            ("2^63", "aaa"),
            ("2^64 - 2048", "aaa"),
        ],
    },
    // uiCount in its place, which is too large.
    Row {
        label: "pPlanes.uiCount before 1,000,001",
        told: loops,
        absent: "16",
        taken: &[("usual", "T 2"), ("-0.0", "no loop")],
    },
];

fn loops(_: &[u8], summary: &Summary) -> String {
    let one = |l: &second::Loop| {
        let axis = match l.axis {
            Axis::T => 'T',
            Axis::Z => 'Z',
            Axis::P => 'P',
        };
        format!("{axis} {}", l.count)
    };
    let all: Vec<String> = summary.used().iter().map(one).collect();
    if all.is_empty() {
        return "no loop".to_string();
    }
    all.join(", ")
}

fn z(_: &[u8], summary: &Summary) -> String {
    assert_eq!(summary.depth, 0);
    format!("class {}, {}", summary.class, summary.z)
}

fn colour(file: &[u8], _: &Summary) -> String {
    let channel = channels(file)[0];
    match channel.colored {
        0 => "none".to_string(),
        _ => format!("{} {} {}", channel.red, channel.green, channel.blue),
    }
}

/// The letters that the components have as names.
fn names(file: &[u8], _: &Summary) -> String {
    let letter = |channel: &Channel| match channel.named {
        0 => '-',
        _ => file[channel.name as usize] as char,
    };
    channels(file).iter().map(letter).collect()
}

/// The fields and their rows.
fn fields() -> impl Iterator<Item = (&'static Row, &'static Field)> {
    ROWS.iter().zip(FIELDS.iter().chain([&PREFERRED]))
}

fn told(row: &Row, file: &[u8]) -> String {
    match open(file) {
        Ok(summary) => (row.told)(file, &summary),
        Err(refused) => refused.to_string(),
    }
}

/// The doubles of a field: its usual one, and those at the limits.
fn doubles(field: &Field) -> Vec<(&'static str, u64)> {
    let usual = ("usual", f64::from(field.usual).to_bits());
    [usual].into_iter().chain(DOUBLES).collect()
}

/// The whole numbers that some of the doubles are.
const WHOLE: [(&str, i128); 6] = [
    ("2^53 + 2", (1 << 53) + 2),
    ("2^63", 1 << 63),
    ("-2^63", -(1 << 63)),
    ("2^64 - 2048", (1 << 64) - 2048),
    ("2^64", 1 << 64),
    ("-0.0", 0),
];

/// The whole number that a double of a field is, if it is one of the field's range.
fn whole(field: &Field, label: &str) -> Option<i128> {
    let number = match label {
        "usual" => Some(i128::from(field.usual)),
        _ => WHOLE.iter().find(|w| w.0 == label).map(|w| w.1),
    };
    let range = match field.signed {
        true => i64::MIN as i128..=i64::MAX as i128,
        false => 0..=u64::MAX as i128,
    };
    number.filter(|number| range.contains(number))
}

/// All that is answered, but for the places, which move where a field is left out.
fn answers(file: &[u8]) -> (Result<Summary, u32>, Vec<Channel>) {
    let opened = open(file);
    let mut row = opened.map_or(Vec::new(), |_| channels(file));
    row.iter_mut().for_each(|channel| channel.name = 0);
    let placeless = opened.map(|summary| Summary {
        map: second::Range::default(),
        ..summary
    });
    (placeless, row)
}

#[test]
fn rows_are_of_all_fields() {
    assert_eq!(ROWS.len(), FIELDS.len() + 1);
    for (row, field) in fields() {
        assert_eq!(row.label, field.label);
    }
    for label in ROWS.iter().flat_map(|row| row.taken).map(|t| t.0) {
        assert!(label == "usual" || DOUBLES.iter().any(|d| d.0 == label));
    }
}

#[test]
fn doubles_are_what_they_are_called() {
    for (label, number) in WHOLE {
        let bits = DOUBLES.iter().find(|d| d.0 == label).map(|d| d.1);
        let double = bits.map(f64::from_bits);
        assert_eq!(double, Some(number as f64), "{label}");
        assert_eq!(number as f64 as i128, number, "{label}");
    }
}

#[test]
fn fields_that_are_left_out() {
    for (row, field) in fields() {
        assert_eq!(told(row, &field.without()), row.absent, "{}", row.label);
    }
}

#[test]
fn doubles_of_every_field() {
    for (row, field) in fields() {
        for (label, bits) in doubles(field) {
            let taken = row.taken.iter().find(|t| t.0 == label);
            let expected = taken.map_or(row.absent, |t| t.1);
            let given = told(row, &field.with_double(bits));
            assert_eq!(given, expected, "{} {label}", row.label);
        }
    }
}

#[test]
fn as_the_whole_number_or_as_none() {
    for (_, field) in fields() {
        for (label, bits) in doubles(field) {
            let file = field.with_double(bits);
            let same = match whole(field, label) {
                Some(number) => field.with_whole(number),
                None => field.without(),
            };
            assert_eq!(answers(&file), answers(&same), "{} {label}", field.label);
        }
    }
}

/// A whole number that is stored as one counts as before.
#[test]
fn whole_numbers_that_are_stored() {
    for (row, field) in fields() {
        let usual = row.taken.iter().find(|t| t.0 == "usual");
        let expected = usual.map_or(row.absent, |t| t.1);
        let file = field.with_whole(i128::from(field.usual));
        assert_eq!(told(row, &file), expected, "{}", row.label);
    }
}

/// The row of a label and what a double gives there.
fn at(label: &str, number: f64) -> String {
    let found = fields().find(|(row, _)| row.label == label);
    let (row, field) = found.expect("a field of that label");
    told(row, &field.with_double(number.to_bits()))
}

#[test]
fn limits_of_u32() {
    assert_eq!(at("uiBpcInMemory", 8.0), "8 bits");
    assert_eq!(at("uiBpcInMemory", 8.5), "11");
    assert_eq!(at("uiBpcInMemory", 4_294_967_295.0), "13");
    assert_eq!(at("uiBpcInMemory", 4_294_967_295.5), "11");
    assert_eq!(at("uiBpcInMemory", 4_294_967_296.0), "11");
    assert_eq!(at("uiColor", 3_355_443.0), "51 51 51");
    assert_eq!(at("uiColor", 3_355_443.5), "none");
    assert_eq!(at("uiColor", 4_294_967_295.0), "255 255 255");
    assert_eq!(at("uiColor", 4_294_967_295.5), "none");
    assert_eq!(at("uiColor", 4_294_967_296.0), "none");
}

/// Fractions beside numbers that a field would take.
#[test]
fn fractions_beside_whole_numbers() {
    for (row, field) in fields() {
        let usual = f64::from(field.usual);
        for number in [usual - 0.1, usual + 0.1, usual + 0.9, -0.5, -usual - 0.5] {
            let file = field.with_double(number.to_bits());
            assert_eq!(told(row, &file), row.absent, "{} {number}", row.label);
        }
        let ulp = f64::from_bits(usual.to_bits() + 1);
        let file = field.with_double(ulp.to_bits());
        assert_eq!(told(row, &file), row.absent, "{} {ulp}", row.label);
    }
}

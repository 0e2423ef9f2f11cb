//! Planes that cover several components. A plane is told by a letter, which is its name and, as a number, its colour.

mod common;

use common::*;
use sample::parts::{self, Sizes};
use sample::tree::{bytes, f64, flag, i32, i64, level, list, pointer, text, u32, u64, Record};
use second::channels::all_single;
use second::Channel;

const COUNT: &str = "uiCompCount";

/// A plane of this letter, with further records.
fn plane(letter: char, more: Vec<Record>) -> Record {
    let name = text("sDescription", &letter.to_string());
    let mut records = vec![name, u32("uiColor", letter as u32)];
    records.extend(more);
    level(&format!("plane {letter}"), records)
}

/// The planes a, b, c and so on, which say how many components they cover, or do not.
fn planes(counts: &[Option<u64>]) -> Vec<Record> {
    let one = |(letter, count): (char, &Option<u64>)| {
        let said = count.map(|count| u64(COUNT, count));
        plane(letter, said.into_iter().collect())
    };
    ('a'..).zip(counts).map(one).collect()
}

/// A file of so many components and these channels.
fn file(components: u64, channels: Record) -> Vec<u8> {
    let sizes = Sizes::packed(1, 1, components, 8);
    of_trees(&[
        (parts::ATTRIBUTES, parts::attributes(sizes)),
        (parts::EXPERIMENT, parts::experiment(&[])),
        (parts::CHANNELS, channels),
    ])
    .finish()
}

/// The letter of the plane whose record this is; '-' for an empty one.
fn letter(file: &[u8], channel: &Channel) -> char {
    if *channel == Channel::default() {
        return '-';
    }
    let letter = file[channel.name as usize];
    let whole = Channel {
        named: 1,
        name: channel.name,
        units: 1,
        colored: 1,
        red: letter as u64,
        ..Channel::default()
    };
    assert_eq!(*channel, whole);
    letter as char
}

/// The letters of all components.
fn told(file: &[u8]) -> String {
    let letters = channels(file);
    letters.iter().map(|c| letter(file, c)).collect()
}

/// The letters of so many components, with planes that say such counts.
fn covered(components: u64, counts: &[Option<u64>]) -> String {
    let channels = parts::channels_in("sPlaneNew", planes(counts));
    told(&file(components, channels))
}

/// The letters of four components, of which the first plane says this and the second one nothing.
fn saying(record: Record) -> String {
    let planes = vec![plane('a', vec![record]), plane('b', Vec::new())];
    told(&file(4, parts::channels_in("sPlaneNew", planes)))
}

#[test]
fn planes_cover_components_in_turn() {
    assert_eq!(covered(3, &[Some(3)]), "aaa");
    assert_eq!(covered(3, &[Some(2), None]), "aab");
    assert_eq!(covered(3, &[None, Some(2)]), "abb");
    assert_eq!(covered(3, &[Some(1), Some(1), None]), "abc");
    assert_eq!(covered(6, &[Some(2), Some(3), Some(1)]), "aabbbc");
}

#[test]
fn nothing_and_0_are_one() {
    assert_eq!(covered(3, &[None, None]), "ab-");
    assert_eq!(covered(3, &[Some(0), None]), "ab-");
    assert_eq!(covered(5, &[Some(0), Some(2), Some(0)]), "abbc-");
}

#[test]
fn the_last_component_ends_them() {
    assert_eq!(covered(1, &[Some(3)]), "a");
    assert_eq!(covered(3, &[Some(7)]), "aaa");
    assert_eq!(covered(3, &[Some(2), Some(2), None]), "aab");
    assert_eq!(covered(3, &[Some(1), Some(2), Some(1)]), "abb");
    assert_eq!(covered(4, &[Some(3)]), "aaa-");
}

/// No sum of counts wraps, and none of them takes as long as it says.
#[test]
fn counts_up_to_the_largest() {
    let most = Some(u64::MAX);
    assert_eq!(covered(3, &[most]), "aaa");
    assert_eq!(covered(3, &[most, None]), "aaa");
    assert_eq!(covered(3, &[None, most, None]), "abb");
    assert_eq!(covered(3, &[None, most, most, Some(1)]), "abb");
    assert_eq!(covered(3, &[Some(u64::MAX - 1), Some(3)]), "aaa");
    assert_eq!(covered(1024, &[most, most]), "a".repeat(1024));
    let late = format!("{}{}", "a".repeat(1000), "b".repeat(24));
    assert_eq!(covered(1024, &[Some(1000), most, most]), late);
}

#[test]
fn whole_numbers_of_every_type() {
    for record in [
        i32(COUNT, 2),
        u32(COUNT, 2),
        i64(COUNT, 2),
        u64(COUNT, 2),
        pointer(COUNT, 2),
    ] {
        assert_eq!(saying(record), "aab-");
    }
    assert_eq!(saying(u64(COUNT, (1 << 32) + 1)), "aaaa");
}

#[test]
fn what_is_no_count_is_one() {
    for record in [
        text(COUNT, "2"),
        bytes(COUNT, &[2, 0, 0, 0]),
        level(COUNT, vec![u32(COUNT, 2)]),
        list(COUNT, vec![u32("", 2)]),
        i32(COUNT, -2),
        i64(COUNT, -2),
        f64(COUNT, -2.0),
        f64(COUNT, f64::NAN),
        u32("uiCompCounts", 2),
    ] {
        assert_eq!(saying(record), "ab--");
    }
}

#[test]
fn flags_and_doubles() {
    assert_eq!(saying(flag(COUNT, 3)), "ab--");
    assert_eq!(saying(flag(COUNT, 0)), "ab--");
    assert_eq!(saying(f64(COUNT, 3.0)), "aaab");
    assert_eq!(saying(f64(COUNT, -0.0)), "ab--");
    assert_eq!(saying(f64(COUNT, 2.9)), "ab--");
    assert_eq!(saying(f64(COUNT, 0.9)), "ab--");
    assert_eq!(saying(f64(COUNT, 1e19)), "aaaa");
    assert_eq!(saying(f64(COUNT, 1e300)), "ab--");
}

#[test]
fn the_last_value_of_a_plane_counts() {
    let twice = vec![u32(COUNT, 3), u32(COUNT, 2)];
    let planes = vec![plane('a', twice), plane('b', Vec::new())];
    let file = file(4, parts::channels_in("sPlaneNew", planes));
    assert_eq!(told(&file), "aab-");
}

#[test]
fn an_empty_record_covers_too() {
    let empty = level("plane", vec![u32(COUNT, 2)]);
    let planes = vec![empty, plane('b', Vec::new())];
    let file = file(4, parts::channels_in("sPlaneNew", planes));
    assert_eq!(told(&file), "--b-");
}

#[test]
fn older_planes_cover_too() {
    let older = || planes(&[Some(2), None]);
    let alone = file(4, parts::channels_in("sPlane", older()));
    assert_eq!(told(&alone), "aab-");
    let newer = vec![plane('x', Vec::new())];
    let both = vec![level("sPlane", older()), level("sPlaneNew", newer)];
    let all = level("sPicturePlanes", both);
    let file = file(4, level("SLxPictureMetadata", vec![all]));
    assert_eq!(told(&file), "x---");
}

#[test]
fn only_a_plane_says_what_it_covers() {
    let said = || u32(COUNT, 3);
    let mut planes = planes(&[None, None]);
    planes.insert(0, said());
    let planes = level("sPlaneNew", planes);
    let all = level("sPicturePlanes", vec![said(), planes]);
    let file = file(4, level("SLxPictureMetadata", vec![said(), all]));
    assert_eq!(told(&file), "ab--");
}

/// All of a record is repeated, and no record behind the last component is filled.
#[test]
fn records_of_a_longer_row() {
    let channels = parts::channels_in("sPlaneNew", planes(&[None, Some(u64::MAX)]));
    let file = file(3, channels);
    let summary = opened(&file);
    let filled = Channel {
        named: 9,
        ..Channel::default()
    };
    let mut row = [filled; 6];
    let mut table = vec![1; 48 * 20];
    assert_eq!(second::channels(&file, &summary, &mut table, &mut row), 0);
    assert_eq!(letter(&file, &row[1]), 'b');
    assert_eq!(row[2], row[1]);
    assert_eq!(row[3..], [Channel::default(); 3]);
}

/// Whether the planes of a file with this record in its first plane say no other number than 1.
fn single(record: Record) -> bool {
    let planes = vec![plane('a', vec![record]), plane('b', Vec::new())];
    let file = file(2, parts::channels_in("sPlaneNew", planes));
    let root = second::calls::channel_root(&file, &opened(&file));
    all_single(&root.expect("the tree is read"))
}

#[test]
fn planes_that_say_one_or_nothing() {
    for record in [
        u32(COUNT, 1),
        flag(COUNT, 3),
        f64(COUNT, 1.0),
        f64(COUNT, 2.9),
        f64(COUNT, 0.5),
        f64(COUNT, f64::INFINITY),
        i32(COUNT, -1),
        text(COUNT, "2"),
        u32("uiCompCounts", 2),
    ] {
        assert!(single(record));
    }
    for record in [
        u32(COUNT, 0),
        u32(COUNT, 2),
        flag(COUNT, 0),
        f64(COUNT, -0.0),
        f64(COUNT, 2.0),
        u64(COUNT, u64::MAX),
    ] {
        assert!(!single(record));
    }
}

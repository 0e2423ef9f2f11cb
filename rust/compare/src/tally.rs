//! How many files gave which number in which call.

use crate::answers::{Answers, Strange};
use crate::check::{Channels, Listed};
use crate::misnamed::Misnamed;
use crate::numbers::WORDS;
use second::refusal::SIZE_RANGE;
use std::collections::BTreeMap;

const CALLS: [&str; 9] = [
    "open",
    "plane",
    "border",
    "tree",
    "channels",
    "register",
    "sheet",
    "read",
    "picometres",
];
/// 0, and every refusal.
const NUMBERS: usize = WORDS.len() + 1;

#[derive(Default)]
pub struct Tally {
    pub files: u64,
    pub planes: u64,
    pub trees: u64,
    /// Sheets with the samples of the original's planes.
    pub sheets: u64,
    damaged_sheets: u64,
    taken_sheets: u64,
    pub unlisted: u64,
    pub unasked: u64,
    /// Files that the original was not asked about for their doubles.
    pub not_whole: u64,
    empty_channels: u64,
    told_channels: u64,
    left_out_channels: u64,
    /// Pixel sizes that were held against the original's: with picometres, with too many of them, without a size.
    sized: u64,
    passing_sizes: u64,
    no_sizes: u64,
    pub misnamed: Misnamed,
    listed: BTreeMap<Listed, u64>,
    hits: [[u64; 9]; NUMBERS],
}

impl Tally {
    /// Counts each number once for a file and a call.
    pub fn count(&mut self, answers: &Answers) {
        self.files += 1;
        self.planes += answers.planes.iter().filter(|p| p.number == 0).count() as u64;
        self.trees += answers.trees.iter().filter(|t| t.number == 0).count() as u64;
        let taken = answers.damaged.iter().filter(|read| read.number == 0);
        self.damaged_sheets += answers.damaged.len() as u64;
        self.taken_sheets += taken.count() as u64;
        for (call, numbers) in numbers(answers).into_iter().enumerate() {
            let mut seen = [false; NUMBERS];
            for number in numbers {
                seen[(number as usize).min(NUMBERS - 1)] = true;
            }
            for (number, _) in seen.iter().enumerate().filter(|(_, s)| **s) {
                self.hits[number][call] += 1;
            }
        }
    }

    /// Counts each listed difference once for a file.
    pub fn listed(&mut self, found: &mut Vec<Listed>) {
        found.sort();
        found.dedup();
        for one in found {
            *self.listed.entry(*one).or_default() += 1;
        }
    }

    /// Counts what became of a file's channels.
    pub fn channels(&mut self, found: Channels) {
        match found {
            Channels::Unasked => {}
            Channels::Empty => self.empty_channels += 1,
            Channels::Told => self.told_channels += 1,
            Channels::LeftOut => self.left_out_channels += 1,
        }
    }

    /// Counts what a file's pixel size gave, where it was held against the original's.
    pub fn size(&mut self, number: Option<u32>) {
        match number {
            None => {}
            Some(0) => self.sized += 1,
            Some(SIZE_RANGE) => self.passing_sizes += 1,
            Some(_) => self.no_sizes += 1,
        }
    }

    /// The numbers that no file gave.
    pub fn missing(&self) -> Vec<usize> {
        let given = |number: &usize| self.hits[*number].iter().any(|&n| n > 0);
        (1..NUMBERS).filter(|number| !given(number)).collect()
    }

    /// How many files gave each number in each call.
    fn print_numbers(&self) {
        println!("files by number and call:");
        let heads: Vec<String> = CALLS.iter().map(|call| format!("{call:>11}")).collect();
        println!("{:>2} {:<12}{}", "", "", heads.concat());
        for (number, calls) in self.hits.iter().enumerate() {
            let word = number.checked_sub(1).map_or("accepted", |i| WORDS[i]);
            let counts: Vec<String> = calls.iter().map(|n| format!("{n:>11}")).collect();
            println!("{number:>2} {word:<12}{}", counts.concat());
        }
    }

    pub fn print(&self) {
        self.print_numbers();
        for one in Listed::ALL {
            let count = self.listed.get(&one).copied().unwrap_or(0);
            println!("listed difference '{}': {count} files", one.name());
        }
        println!(
            "not asked of the original, many scenes: {} files",
            self.unasked
        );
        println!(
            "not asked of the original, a double where a whole number is read and that is none: {} files",
            self.not_whole
        );
        self.print_channels();
        println!(
            "sheets with the samples of the original's planes, read back: {}; damaged and read: {}, {} of them taken",
            self.sheets, self.damaged_sheets, self.taken_sheets
        );
        println!(
            "pixel sizes held against the original's: {} files, {} of them past 2^64 - 1 picometres; without one: {}",
            self.sized + self.passing_sizes, self.passing_sizes, self.no_sizes
        );
        self.misnamed.print();
        let missing = self.missing();
        if !missing.is_empty() {
            println!("numbers that no file gave (26 needs one of 4 GB): {missing:?}");
        }
        println!(
            "{} files, {} planes, {} trees, {} unlisted differences",
            self.files, self.planes, self.trees, self.unlisted
        );
    }

    fn print_channels(&self) {
        println!(
            "channels compared with the original: {} files, {} of them with names or colours",
            self.empty_channels + self.told_channels,
            self.told_channels
        );
        println!(
            "channels not compared with the original, a plane record says other than one component: {} files",
            self.left_out_channels
        );
    }
}

/// The numbers of each call, in the order of `CALLS`.
fn numbers(a: &Answers) -> [Vec<u32>; 9] {
    let open = [a.open, a.small_open].into_iter().flatten();
    let planes = a.planes.iter().map(|l| l.number);
    let trees = a.trees.iter().chain(&a.small_trees).map(|l| l.number);
    let register = [a.register.as_ref().map(|l| l.number), a.short_register];
    let wild = |call: usize| a.wild.iter().map(move |numbers| numbers[call]);
    let short = a.short_planes.iter().copied();
    let strange = |number: fn(&Strange) -> u32| a.strange.iter().map(number);
    [
        open.map(|o| o.err().unwrap_or(0)).collect(),
        planes
            .chain(short)
            .chain(wild(0))
            .chain(strange(|s| s.plane.number))
            .collect(),
        a.borders.iter().map(|l| l.number).collect(),
        trees
            .chain(wild(1))
            .chain(strange(|s| s.tree.number))
            .collect(),
        channels(a),
        register
            .into_iter()
            .flatten()
            .chain(wild(3))
            .chain(strange(|s| s.register.number))
            .collect(),
        sheets(a),
        reads(a),
        picometres(a),
    ]
}

fn picometres(a: &Answers) -> Vec<u32> {
    let own = [a.picometres.0, a.small_picometres.0];
    let wild = a.wild.iter().map(|numbers| numbers[5]);
    let strange = a.strange.iter().map(|s| s.picometres.0);
    own.into_iter().chain(wild).chain(strange).collect()
}

fn channels(a: &Answers) -> Vec<u32> {
    let own = [
        a.channels.as_ref().map(|row| row.number),
        a.short_channels,
        a.small_channels,
    ];
    let wild = a.wild.iter().map(|numbers| numbers[2]);
    let strange = a.strange.iter().map(|s| s.channels.number);
    own.into_iter()
        .flatten()
        .chain(wild)
        .chain(strange)
        .collect()
}

fn sheets(a: &Answers) -> Vec<u32> {
    let written = a.sheets.iter().map(|l| l.number);
    let wild = a.wild.iter().map(|numbers| numbers[4]);
    let strange = a.strange.iter().map(|s| s.sheet.number);
    let short = a.short_sheets.iter().copied();
    written.chain(short).chain(wild).chain(strange).collect()
}

fn reads(a: &Answers) -> Vec<u32> {
    let reads = a.reads.iter().chain(&a.short_reads).chain(&a.damaged);
    reads.map(|read| read.number).collect()
}

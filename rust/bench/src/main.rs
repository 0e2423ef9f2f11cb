//! Times the proved reader beside memcpy, the second implementation, the original, an earlier build and a gather in C.
//!
//!     bench [ORIGINAL_FOLDER] [--before FOLDER] [--only planes|sheets|roller|map|names|odd] [--side N] [--roller-side N]
//!           [--entries N] [--names N] [--shrink N] [--seconds N] [--repetitions N]
//!
//! ORIGINAL_FOLDER has the original's nd2_reader.rs, calibration.rs, types.rs and guard.rs; without it the original is
//! left out. The folder of --before has the libnd2.a of an earlier build, or its libcapi.a, which opens the levels of names
//! and the odd files too. Planes have N x N samples (--side, 2048); those of the roller, of which there are 528, N x N too
//! (--roller-side, 512: with 2048 the roller has 4.4 GB and as much memory is needed). Odd files are slow on purpose: they
//! have one Nth of their sizes (--shrink, 1), and after N seconds no further round of such a row begins (--seconds, 10). All
//! contenders take turns in this one process, and the best time of each counts. The exit status is 1 where a target is
//! missed, or a call takes more stack than include/nd2.h says; a target that needs the original or a C compiler, where that
//! is left out, is told as not run.

mod before;
mod cases;
mod families;
mod files;
mod gather;
mod library;
mod maps;
mod memory;
mod names;
mod nested;
mod odd;
mod opening;
mod original;
mod planes;
mod roller;
mod sheets;
mod stack;
mod table;
mod timing;

use nd2::Reader;
use opening::Others;
use original::Original;
use sample::parts::Sizes;
use stack::Deepest;
use std::io;
use std::ops::RangeInclusive;
use std::path::PathBuf;
use std::process::ExitCode;
use std::time::Duration;
use table::{Row, Verdict};

const USAGE: &str = "\
usage: bench [ORIGINAL_FOLDER] [--before FOLDER] [--only planes|sheets|roller|map|names|odd] [--side N] [--roller-side N]
             [--entries N] [--names N] [--shrink N] [--seconds N] [--repetitions N]";

/// What --only may name.
const GROUPS: [&str; 6] = ["planes", "sheets", "roller", "map", "names", "odd"];

/// Components and bits of the planes that are written as sheets.
const SHEETS: [(u64, u64); 6] = [(1, 8), (1, 16), (1, 32), (3, 8), (3, 16), (3, 32)];

/// A map of fewer has no frames, and one of more is refused.
const ENTRIES: RangeInclusive<u32> = 4..=2_000_000;

struct Options {
    original: Option<PathBuf>,
    only: Option<String>,
    side: u64,
    roller_side: u32,
    entries: usize,
    names: usize,
    shrink: usize,
    seconds: u64,
    before: Option<PathBuf>,
    repetitions: u32,
}

impl Default for Options {
    fn default() -> Options {
        Options {
            original: None,
            only: None,
            side: 2048,
            roller_side: 512,
            entries: 2_000_000,
            names: 10_000,
            shrink: 1,
            seconds: 10,
            before: None,
            repetitions: 5,
        }
    }
}

fn options() -> Option<Options> {
    let mut arguments = std::env::args_os().skip(1);
    let mut options = Options::default();
    while let Some(argument) = arguments.next() {
        let mut value = || {
            arguments
                .next()?
                .to_str()?
                .parse()
                .ok()
                .filter(|&n: &u32| n >= 1)
        };
        match argument.to_str() {
            Some("--side") => options.side = value()?.into(),
            Some("--roller-side") => options.roller_side = value()?,
            Some("--entries") => {
                options.entries = value().filter(|n| ENTRIES.contains(n))? as usize
            }
            Some("--names") => {
                options.names = value().filter(|n| *n <= files::MOST_NAMES)? as usize
            }
            Some("--shrink") => options.shrink = value()? as usize,
            Some("--seconds") => options.seconds = value()?.into(),
            Some("--before") => options.before = Some(PathBuf::from(arguments.next()?)),
            Some("--repetitions") => options.repetitions = value()?,
            Some("--only") => options.only = Some(group(arguments.next()?.to_str()?)?),
            Some(option) if option.starts_with('-') => return None,
            _ if options.original.is_some() => return None,
            _ => options.original = Some(PathBuf::from(argument)),
        }
    }
    Some(options)
}

fn group(name: &str) -> Option<String> {
    GROUPS.contains(&name).then(|| name.to_string())
}

impl Options {
    fn asks_for(&self, group: &str) -> bool {
        self.only.as_deref().is_none_or(|only| only == group)
    }

    fn limits(&self) -> odd::Limits {
        odd::Limits {
            repetitions: 4 * self.repetitions,
            most: Duration::from_secs(self.seconds),
            shrink: self.shrink,
        }
    }
}

fn main() -> ExitCode {
    if std::env::args_os().any(|word| word == "--help" || word == "-h") {
        println!("{USAGE}");
        return ExitCode::SUCCESS;
    }
    let Some(options) = options() else {
        eprintln!("{USAGE}");
        return ExitCode::from(2);
    };
    let others = match others(&options) {
        Ok(others) => others,
        Err(error) => {
            eprintln!("bench: {error}");
            return ExitCode::from(2);
        }
    };
    // memory first, while the process has none to give again
    let memory = Memory::measured(options.side, others.original);
    let verdicts = times(&options, others);
    memory.print();
    let missed = verdicts.contains(&Verdict::Missed) || !memory.stack_holds();
    ExitCode::from(missed as u8)
}

/// The contenders that are loaded.
fn others(options: &Options) -> io::Result<Others> {
    let original = options.original.as_deref().map(original::load);
    let before = options.before.as_deref().map(before::load);
    Ok(Others {
        original: original.transpose()?,
        before: before.transpose()?,
    })
}

/// Prints the table, and how many of its targets are met, missed and not run; what became of each target.
fn times(options: &Options, others: Others) -> Vec<Verdict> {
    table::head();
    let original = others.original;
    let repetitions = options.repetitions;
    let mut verdicts = Vec::new();
    let mut print = |rows: Vec<Row>| verdicts.extend(rows.iter().flat_map(table::print));
    if options.asks_for("planes") {
        for sizes in planes::sizes(options.side) {
            print(planes::rows(sizes, original, 4 * repetitions));
        }
    }
    if options.asks_for("sheets") {
        for (components, bits) in SHEETS {
            let sizes = Sizes::packed(options.side, options.side, components, bits);
            print(sheets::rows(sizes, 8 * repetitions));
        }
    }
    if options.asks_for("roller") {
        print(roller::rows(options.roller_side, original, repetitions));
    }
    if options.asks_for("map") {
        print(maps::rows(options.entries, original, repetitions));
    }
    if options.asks_for("names") {
        print(names::rows(options.names, others, repetitions));
    }
    if options.asks_for("odd") {
        for family in odd::families(others, options.limits()) {
            print(family.rows);
            println!("{}", family.told);
        }
    }
    explain(&verdicts);
    verdicts
}

/// What stands below the table.
fn explain(verdicts: &[Verdict]) {
    println!();
    println!("'bytes' are what memcpy copies: those of the planes, of the map, of the file with names or an odd one. The original has no register:");
    println!("its map is asked for each frame; nor has it sheets: these stand beside the proved reader's plane; nor picometres. The gather is a loop in C");
    println!(
        "(compiled by: {}). Below the sizes of an odd file stands by which power of the size the time grows.",
        gather::COMPILER.unwrap_or("none")
    );
    let so_many = |which| verdicts.iter().filter(|&&verdict| verdict == which).count();
    let [met, missed] = [Verdict::Met, Verdict::Missed].map(so_many);
    let not_run = so_many(Verdict::NotRun);
    println!("Targets: {met} met, {missed} missed, {not_run} not run (they need the original or a C compiler).");
}

/// What memory opening a file and reading one plane take, beyond the file and the samples that are lent.
struct Memory {
    side: u64,
    /// Kilobytes, where the system tells them.
    proved: Option<i64>,
    original: Option<Option<i64>>,
    stack: io::Result<Deepest>,
}

impl Memory {
    fn measured(side: u64, original: Option<Original>) -> Memory {
        let file = files::one_frame(Sizes::packed(side, side, 3, 16));
        let mut samples = vec![1; (side * side * 2) as usize];
        let proved = memory::peak(|| {
            let reader = Reader::open(&file).expect("it opens");
            let read = reader.plane_into(0, 0, 1, 0, &mut samples);
            read.expect("a plane");
        });
        let theirs = original.map(|original| {
            memory::peak(|| {
                let opened = original.open(&file).expect("it opens");
                assert!(opened.plane([0, 0, 1, 0]) > 0);
            })
        });
        Memory {
            side,
            proved,
            original: theirs,
            stack: stack::deepest(),
        }
    }

    fn print(&self) {
        let told = |peak: Option<i64>| peak.map_or("not told".to_string(), |kb| format!("{kb} kB"));
        let side = self.side;
        println!();
        println!("Memory for opening and one plane of {side} x {side}, 3 components of 16 bits, beyond the file and lent samples:");
        println!(
            "  proved    {} (with the table of entries, 12 kB)",
            told(self.proved)
        );
        if let Some(original) = self.original {
            let plane = side * side * 2 / 1024;
            println!(
                "  original  {} (with the plane, {plane} kB)",
                told(original)
            );
        }
        match &self.stack {
            Ok(deepest) => println!("  stack     {}", deepest.told()),
            Err(error) => println!("  stack     {error}"),
        }
    }

    /// Whether no call takes more stack than the header says, as far as it was measured.
    fn stack_holds(&self) -> bool {
        self.stack.as_ref().map_or(true, Deepest::within_bound)
    }
}

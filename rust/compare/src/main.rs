//! Holds readers against the original on random files.
//!
//!     compare ORIGINAL_FOLDER [--files N] [--seed S] [--corners] [--sizes N] [--unchanged]
//!
//! ORIGINAL_FOLDER has the original's nd2_reader.rs, calibration.rs, types.rs and guard.rs; `reference` says which of its
//! calls are changed. First come files whose map leads to chunks of other names, then file i of a run is the one of seed
//! S + i; with --corners, files at the limits come before all, which take time and memory. With --sizes, files of single
//! pixel sizes come last: what is no double, doubles by name, those around each power of two, and N at random from seed S.
//! Differences that docs/DIFFERENCES.md lists are counted; any other is printed with its seed, its file is saved, and the
//! exit status is 1. With --unchanged no call of the original is changed: then there are differences.

mod answers;
mod check;
mod misnamed;
mod numbers;
mod original;
mod picometres;
mod proved;
mod reader;
mod reference;
mod run;
mod sheets;
mod table;
mod tally;
#[path = "../driver/wire.rs"]
mod wire;

use original::Original;
use run::{Case, Run};
use sample::{pixel, Rng};
use std::io;
use std::path::{Path, PathBuf};
use std::process::ExitCode;
use tally::Tally;

const USAGE: &str =
    "usage: compare ORIGINAL_FOLDER [--files N] [--seed S] [--corners] [--sizes N] [--unchanged]";

struct Options {
    original: PathBuf,
    files: u64,
    seed: u64,
    corners: bool,
    sizes: Option<u64>,
    unchanged: bool,
}

fn options() -> Option<Options> {
    let mut arguments = std::env::args_os().skip(1);
    let mut options = Options {
        original: PathBuf::from(arguments.next()?),
        files: 20_000,
        seed: 1,
        corners: false,
        sizes: None,
        unchanged: false,
    };
    while let Some(argument) = arguments.next() {
        let mut value = || arguments.next()?.to_str()?.parse().ok();
        match argument.to_str()? {
            "--files" => options.files = value()?,
            "--seed" => options.seed = value()?,
            "--corners" => options.corners = true,
            "--sizes" => options.sizes = Some(value()?),
            "--unchanged" => options.unchanged = true,
            _ => return None,
        }
    }
    Some(options)
}

/// Asks pixel sizes: what is no double, doubles by name, those around each power of two, and so many at random.
fn sizes(run: &mut Run, seed: u64, random: u64) -> io::Result<()> {
    let rng = &mut Rng::new(seed);
    let mut doubles: Vec<u64> = pixel::DOUBLES.iter().map(|(_, bits)| *bits).collect();
    doubles.extend(pixel::powers());
    doubles.extend((0..random).map(|_| pixel::random(rng)));
    let others = pixel::others();
    println!(
        "{} files of single pixel sizes",
        doubles.len() + others.len()
    );
    let others = others.into_iter().map(Case::calibrated);
    let doubles = doubles.into_iter().map(Case::sized);
    others.chain(doubles).try_for_each(|case| run.case(&case))
}

/// Builds the original in `folder` and compares all files.
fn compared(options: &Options, folder: &Path) -> io::Result<Tally> {
    let program = original::build(&options.original, folder, options.unchanged)?;
    let mut run = Run::new(Original::start(&program)?);
    if options.corners {
        for (name, write) in sample::corner::ALL {
            println!("{name}");
            run.case(&Case::corner(name, write()))?;
        }
    }
    for (label, file) in sample::misnamed::all() {
        run.case(&Case::corner(&label, file))?;
    }
    for i in 0..options.files {
        run.case(&Case::seeded(options.seed.wrapping_add(i)))?;
    }
    if let Some(random) = options.sizes {
        sizes(&mut run, options.seed, random)?;
    }
    Ok(run.tally)
}

fn main() -> ExitCode {
    let Some(options) = options() else {
        eprintln!("{USAGE}");
        return ExitCode::from(2);
    };
    let folder = std::env::temp_dir().join(format!("compare-original-{}", std::process::id()));
    let tally = compared(&options, &folder);
    let _ = std::fs::remove_dir_all(&folder);
    match tally {
        Ok(tally) => {
            tally.print();
            ExitCode::from((tally.unlisted > 0) as u8)
        }
        Err(error) => {
            eprintln!("compare: {error}");
            ExitCode::from(2)
        }
    }
}

//! Writes the list of questions that the program `replay` of the Rattle repository asks the proved calls, and what it
//! has to print: the answers of the second implementation. The gate replays the list, so it needs no Rust.
//!
//!     cargo run --offline --release -p replay             writes crates/replay/data/cases and crates/replay/stdout
//!     cargo run --offline --release -p replay -- --check  says whether these are what would be written
//!
//! The list is made from seeds alone, so it is the same in every run: document 01's edges, files of single rules, small
//! rollers with all their planes, files whose plane records cover several components, random files, good and damaged,
//! sheets, good and damaged, every field that is read as a whole number with doubles at the limits, pixel sizes, and chunks
//! of other names than the map's (`list`, `rules`, `sheets`, `whole`, `pixel` and `misnamed` say which, `questions` what is
//! asked about files, `step` how it is stored). A change of `sample` or of `plan` changes it: write it anew.

mod answer;
mod list;
mod misnamed;
mod pixel;
mod questions;
mod rules;
mod sheets;
mod step;
mod whole;

use answer::State;
use second::refusal::{CHUNK_NAME, SHEET_LONG};
use std::collections::BTreeSet;
use std::path::PathBuf;
use std::process::ExitCode;
use std::{fs, io};
use step::Step;

/// What is stored: the steps, and the lines that they print.
struct Stored {
    cases: Vec<u8>,
    stdout: String,
}

/// The folder of the Rattle program.
fn folder() -> PathBuf {
    PathBuf::from(env!("CARGO_MANIFEST_DIR")).join("../../crates/replay")
}

/// The lines that steps print, by the second implementation.
fn lines(steps: &[Step]) -> String {
    let mut text = String::new();
    let mut state = State::default();
    for step in steps {
        let line = match step {
            Step::Label(label) => Some(label.clone()),
            _ => state.take(step).map(|answer| answer.line()),
        };
        text.extend(line.map(|line| line + "\n"));
    }
    text
}

impl Stored {
    fn new(steps: &[Step]) -> Stored {
        let mut cases = Vec::new();
        steps.iter().for_each(|step| step.write(&mut cases));
        let stdout = lines(steps);
        Stored { cases, stdout }
    }

    fn read() -> io::Result<Stored> {
        Ok(Stored {
            cases: fs::read(folder().join("data/cases"))?,
            stdout: fs::read_to_string(folder().join("stdout"))?,
        })
    }

    fn write(&self) -> io::Result<()> {
        fs::create_dir_all(folder().join("data"))?;
        fs::write(folder().join("data/cases"), &self.cases)?;
        fs::write(folder().join("stdout"), &self.stdout)?;
        let lengths = (self.cases.len(), self.stdout.len());
        println!("cases: {} bytes, stdout: {} bytes", lengths.0, lengths.1);
        Ok(())
    }
}

/// The numbers, and 0, that no call gives. 26 needs a file of 4 GB.
fn missing(steps: &[Step]) -> Vec<u32> {
    let mut given: BTreeSet<u32> = list::given(steps).into_iter().map(|(_, n)| n).collect();
    given.insert(SHEET_LONG);
    (0..=CHUNK_NAME).filter(|n| !given.contains(n)).collect()
}

/// What is wrong with a stored list, whose steps would be `steps` if it were written now.
fn fault(stored: &Stored, steps: &[Step]) -> Option<&'static str> {
    let Some(read) = step::read(&stored.cases) else {
        return Some("data/cases is no list");
    };
    if lines(&read) != stored.stdout {
        return Some("stdout has other answers than the second implementation's to data/cases");
    }
    let now = Stored::new(steps);
    (now.cases != stored.cases).then_some("data/cases is not what would be written")
}

fn run() -> io::Result<()> {
    let steps = list::steps();
    let missing = missing(&steps);
    if !missing.is_empty() {
        return Err(io::Error::other(format!("no answer is {missing:?}")));
    }
    match std::env::args().nth(1).as_deref() {
        None => Stored::new(&steps).write(),
        Some("--check") => match fault(&Stored::read()?, &steps) {
            Some(fault) => Err(io::Error::other(fault)),
            None => {
                println!("the list is what would be written");
                Ok(())
            }
        },
        Some(other) => Err(io::Error::other(format!("{other} is no option"))),
    }
}

fn main() -> ExitCode {
    match run() {
        Ok(()) => ExitCode::SUCCESS,
        Err(error) => {
            eprintln!("{error}");
            ExitCode::FAILURE
        }
    }
}

#[cfg(test)]
mod tests {
    use super::*;

    /// The stored list is the one that would be written, and has every number; a sheet is written with each that a plane
    /// gives, and read with each of its own; a pixel size has each of its own. 29 is of the calls that come to a chunk.
    #[test]
    fn stored() {
        let steps = list::steps();
        assert_eq!(missing(&steps), []);
        let given = list::given(&steps);
        let numbers = |call: &str| {
            let of = given.iter().filter(|(name, _)| *name == call);
            of.map(|(_, number)| *number).collect::<Vec<u32>>()
        };
        assert_eq!(numbers("sheet"), numbers("plane"));
        assert_eq!(numbers("read"), [0, 25, 27]);
        let sizes = [0, 4, 5, 6, 7, 8, 9, 10, 11, 18, 20, 28, 29];
        assert_eq!(numbers("picometres"), sizes);
        for call in ["open", "plane", "border", "tree", "sheet"] {
            assert!(numbers(call).contains(&CHUNK_NAME), "{call}");
        }
        for call in ["channels", "register", "read"] {
            assert!(!numbers(call).contains(&CHUNK_NAME), "{call}");
        }
        assert_eq!(fault(&Stored::read().unwrap(), &steps), None);
    }

    /// A plane at the ceiling is not refused for it, and one column more is.
    #[test]
    fn ceiling() {
        let text = lines(&list::steps());
        let after = |label: &str| text.split(label).nth(1).and_then(|t| t.lines().nth(1));
        assert!(after("65,536 by 65,536 bytes passes").is_some_and(|l| l.starts_with("plane 24 ")));
        assert!(
            after("65,537 by 65,536 bytes gives 22").is_some_and(|l| l.starts_with("plane 22 "))
        );
    }

    /// Pixel sizes: the number under the label of a calibration.
    #[test]
    fn sizes() {
        let text = format!("\n{}", lines(&pixel::all()));
        let numbered = |label: &str, number: u32| {
            let under = format!("\n{label}\npicometres {number} ");
            assert!(text.contains(&under), "{label}");
        };
        numbered("dCalibration 0.1", 0);
        numbered("dCalibration the largest below 2^64 picometres", 0);
        numbered("dCalibration infinity", 28);
        numbered("dCalibration -0.0", 11);
        numbered("dCalibration true", 0);
        numbered("dCalibration, then a text", 11);
        numbered("a packed record", 8);
        numbered("tables for a calibration of three entries", 18);
        numbered("a calibration, its map cut, a summary that is refused", 0);
    }

    /// The lines under a label of the chunks of other names begin with these calls and numbers.
    fn under(label: &str, numbers: &[(&str, u32)]) {
        let text = format!("\n{}", lines(&misnamed::all()));
        let after = text.split(&format!("\n{label}\n")).nth(1).expect(label);
        for (line, (call, number)) in after.lines().zip(numbers) {
            assert!(
                line.starts_with(&format!("{call} {number} ")),
                "{label}: {line}"
            );
        }
    }

    #[test]
    fn trees_of_other_names() {
        let opened = |number| [("open", number), ("border", number), ("tree", number)];
        under("attributes: the chunk beside it", &opened(29));
        under("experiment: a longer name", &opened(0));
        let sized = [("open", 0), ("tree", 29), ("picometres", 29)];
        under("calibration: a name without its !", &sized);
        let channels = [("open", 0), ("tree", 29), ("channels", 0)];
        under("channels: the chunk beside it", &channels);
    }

    #[test]
    fn frames_of_other_names() {
        let frame = |n| {
            [
                ("open", 0),
                ("plane", n),
                ("sheet", n),
                ("border", n),
                ("register", 0),
            ]
        };
        under("frame: a name without its !", &frame(29));
        under("frame: another name, data past the end", &frame(29));
        under("frame: another name, past the end", &frame(4));
        let planes = [("open", 0), ("plane", 0), ("plane", 29), ("plane", 0)];
        under("frame 1 leads to frame 10", &planes);
    }

    /// A list with one other number in it, or one other line, is found out.
    #[test]
    fn changes() {
        let steps = list::steps();
        let other = |change: fn(&mut Stored)| {
            let mut stored = Stored::new(&steps);
            change(&mut stored);
            fault(&stored, &steps).is_some()
        };
        assert!(!other(|_| {}));
        assert!(other(|s| s.cases[0] ^= 1));
        assert!(other(|s| *s.cases.last_mut().unwrap() ^= 1));
        assert!(other(
            |s| s.stdout = s.stdout.replacen("plane 22", "plane 24", 1)
        ));
    }
}

//! One file after the other: all readers and the original are asked, the answers compared and counted.

use crate::answers::{asked, Answers, Scratch};
use crate::check::{Check, Findings, Listed};
use crate::original::{Answer, Original, Question};
use crate::reader::{readers, Reader};
use crate::tally::Tally;
use plan::doubles::not_whole;
use plan::{Plan, MOST_FRAMES};
use sample::Rng;
use second::{Axis, Summary};
use std::io;
use std::panic::{catch_unwind, AssertUnwindSafe};

/// The original copies every channel into every scene: beyond this many copies it is not asked ("Memory").
const MOST_COPIES: u64 = 4_000_000;
/// Files with many scenes take the original long; so many of them are asked in a run.
const MANY_SCENES: u64 = 100_000;
const MOST_SLOW: u64 = 3;
const MOST_PRINTED: u64 = 20;

/// A file, what it is called in the report, and whether all of its planes are asked.
pub struct Case {
    label: String,
    seed: u64,
    file: Vec<u8>,
    every_plane: bool,
}

impl Case {
    pub fn seeded(seed: u64) -> Case {
        Case {
            label: seed.to_string(),
            seed,
            file: sample::random::file(seed),
            every_plane: false,
        }
    }

    /// The file whose pixel size is this double.
    pub fn sized(bits: u64) -> Case {
        Case {
            label: format!("size-{bits:016x}"),
            seed: bits,
            file: sample::pixel::with_double(bits),
            every_plane: false,
        }
    }

    /// The file whose calibration has these records.
    pub fn calibrated((label, records): sample::pixel::Stated) -> Case {
        Case {
            label: label.to_string(),
            seed: 0,
            file: sample::pixel::with(records),
            every_plane: false,
        }
    }

    pub fn corner(name: &str, file: Vec<u8>) -> Case {
        Case {
            label: name.to_string(),
            seed: 0,
            file,
            every_plane: true,
        }
    }
}

pub struct Run {
    readers: Vec<Box<dyn Reader>>,
    original: Original,
    scratch: Scratch,
    pub tally: Tally,
    slow: u64,
}

/// What the original answered: everything, or nothing because it was spared the question or broke off.
enum Asked {
    Answered(Box<Answer>),
    Spared,
    BrokeOff,
}

impl Run {
    pub fn new(original: Original) -> Run {
        Run {
            readers: readers(),
            original,
            scratch: Scratch::default(),
            tally: Tally::default(),
            slow: 0,
        }
    }

    /// Compares all readers on one file. The questions are made from the second implementation's opening.
    pub fn case(&mut self, case: &Case) -> io::Result<()> {
        let file = &case.file;
        let Some(open) = caught(|| second::calls::opened(file, usize::MAX)) else {
            return self.report(case, "second", &["it panicked".to_string()]);
        };
        let mut plan = Plan::new(&mut Rng::new(!case.seed), file, &open);
        if case.every_plane {
            plan.every_plane();
        }
        let original = match self.asked_original(file, &plan, &open)? {
            Asked::Answered(answer) => Some(answer),
            Asked::Spared => None,
            Asked::BrokeOff => {
                self.report(case, "original", &["it broke off".to_string()])?;
                None
            }
        };
        let map = match &original {
            Some(answer) => answer.map.as_ref().ok().copied(),
            None => second::map::place(file).ok(),
        };
        if let Some(map) = map {
            plan.map_at(map);
        }
        self.compare(case, &plan, original.as_deref())
    }

    fn compare(&mut self, case: &Case, plan: &Plan, original: Option<&Answer>) -> io::Result<()> {
        let mut first: Option<Answers> = None;
        let mut misnamed = false;
        for i in 0..self.readers.len() {
            let reader = self.readers[i].as_ref();
            let name = reader.name();
            let scratch = &mut self.scratch;
            let Some(answers) = caught(|| asked(reader, &case.file, plan, scratch)) else {
                self.report(case, name, &["it panicked".to_string()])?;
                continue;
            };
            let mut findings = checked(&case.file, plan, &answers, original);
            match &first {
                Some(first) => findings.unlisted.extend(first.differing(&answers)),
                None => {
                    self.tally.count(&answers);
                    misnamed = self.tally.misnamed.count(&answers);
                    self.tally.listed(&mut findings.listed);
                    self.tally.channels(findings.channels);
                    self.tally.sheets += findings.sheets;
                    self.tally.size(findings.size);
                    first = Some(answers);
                }
            }
            if misnamed {
                self.tally.misnamed.differing(&findings.unlisted);
            }
            self.report(case, name, &findings.unlisted)?;
        }
        Ok(())
    }

    /// Asks the original, unless a double stands where a whole number is read and is none, which it reads by another rule
    /// (`plan::doubles`), or it would run out of memory, or was asked enough of such files.
    fn asked_original(
        &mut self,
        file: &[u8],
        plan: &Plan,
        open: &Result<Summary, u32>,
    ) -> io::Result<Asked> {
        if caught(|| not_whole(file)).is_some_and(|fields| !fields.is_empty()) {
            self.tally.not_whole += 1;
            return Ok(Asked::Spared);
        }
        let scenes = open.map_or(1, |s| s.count(Axis::P));
        if scenes * plan.summary.components > MOST_COPIES {
            self.tally.listed(&mut vec![Listed::Memory]);
            return Ok(Asked::Spared);
        }
        self.slow += (scenes > MANY_SCENES) as u64;
        if scenes > MANY_SCENES && self.slow > MOST_SLOW {
            self.tally.unasked += 1;
            return Ok(Asked::Spared);
        }
        let answer = self.original.ask(&Question {
            components: plan.summary.components,
            most_frames: MOST_FRAMES,
            planes: &plan.planes,
            names: &plan.names,
            file,
        })?;
        Ok(answer.map_or(Asked::BrokeOff, |a| Asked::Answered(Box::new(a))))
    }

    /// Prints what is not listed and saves the file.
    fn report(&mut self, case: &Case, who: &str, unlisted: &[String]) -> io::Result<()> {
        if unlisted.is_empty() {
            return Ok(());
        }
        self.tally.unlisted += 1;
        if self.tally.unlisted > MOST_PRINTED {
            return Ok(());
        }
        let path = std::env::temp_dir().join(format!("compare-{}.nd2", case.label));
        std::fs::write(&path, &case.file)?;
        println!("seed {}, {who}, {}:", case.label, path.display());
        for one in unlisted {
            println!("    {one}");
        }
        Ok(())
    }
}

/// What a reader answers, unless it panics.
fn caught<T>(ask: impl FnOnce() -> T) -> Option<T> {
    catch_unwind(AssertUnwindSafe(ask)).ok()
}

fn checked(file: &[u8], plan: &Plan, answers: &Answers, original: Option<&Answer>) -> Findings {
    let Some(original) = original else {
        return Findings {
            unlisted: answers.faults.clone(),
            ..Findings::default()
        };
    };
    let mut check = Check {
        file,
        plan,
        answers,
        original,
        findings: Findings::default(),
    };
    check.run();
    check.findings
}

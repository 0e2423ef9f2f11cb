//! One table of times and ratios.

use crate::timing::{Best, Who, ALL};

/// Letters of the first column.
const WIDTH: usize = 60;

/// The most that a ratio of ours to another's time may be.
#[derive(Clone, Copy)]
pub struct Target {
    pub against: Who,
    pub most: f64,
}

/// What became of a target.
#[derive(Clone, Copy, Debug, PartialEq, Eq)]
pub enum Verdict {
    Met,
    Missed,
    NotRun,
}

/// What was timed, how many bytes memcpy copies beside it, and the best times.
pub struct Row {
    pub what: String,
    pub bytes: usize,
    pub best: Best,
    pub targets: Vec<Target>,
}

impl Target {
    pub fn new(against: Who, most: f64) -> Target {
        Target { against, most }
    }

    /// What the last column says of it.
    fn told(self, verdict: Verdict) -> String {
        let word = match verdict {
            Verdict::Met => "pass",
            Verdict::Missed => "MISS",
            Verdict::NotRun => "not run",
        };
        format!("{} x {}: {word}", self.most, name(self.against))
    }
}

impl Row {
    /// The best time of a contender.
    pub fn time(&self, who: Who) -> Option<f64> {
        self.best[who as usize]
    }

    fn ratio(&self, against: Who) -> Option<f64> {
        Some(self.time(Who::Proved)? / self.time(against)?)
    }

    fn verdict(&self, target: Target) -> Verdict {
        match self.ratio(target.against) {
            Some(ratio) if ratio <= target.most => Verdict::Met,
            Some(_) => Verdict::Missed,
            None => Verdict::NotRun,
        }
    }
}

pub fn name(who: Who) -> &'static str {
    match who {
        Who::Memcpy => "memcpy",
        Who::Proved => "proved",
        Who::Second => "second",
        Who::Original => "original",
        Who::Plane => "plane",
        Who::Before => "before",
        Who::Gather => "gather",
    }
}

/// All but the proved reader.
fn others() -> impl Iterator<Item = Who> {
    ALL.into_iter().filter(|who| *who != Who::Proved)
}

fn milliseconds(seconds: Option<f64>) -> String {
    match seconds.map(|seconds| seconds * 1e3) {
        None => "-".to_string(),
        Some(ms) if ms < 1.0 => format!("{ms:.4}"),
        Some(ms) if ms < 100.0 => format!("{ms:.2}"),
        Some(ms) => format!("{ms:.0}"),
    }
}

fn shown(ratio: Option<f64>) -> String {
    ratio.map_or("-".to_string(), |ratio| format!("{ratio:.2}"))
}

pub fn head() {
    println!("Best times in milliseconds, and ours (proved) as a ratio to each of the others.");
    println!();
    print!("{:WIDTH$} {:>12}", "", "bytes");
    ALL.iter().for_each(|who| print!(" {:>9}", name(*who)));
    print!(" ");
    others().for_each(|who| print!(" {:>9}", format!("/{}", name(who))));
    println!("  target");
}

/// Prints a row; what became of its targets.
pub fn print(row: &Row) -> Vec<Verdict> {
    let verdicts: Vec<Verdict> = row.targets.iter().map(|t| row.verdict(*t)).collect();
    let targets = row.targets.iter().zip(&verdicts);
    let told: Vec<String> = targets.map(|(t, verdict)| t.told(*verdict)).collect();
    print!("{:WIDTH$} {:>12}", row.what, row.bytes);
    ALL.iter()
        .for_each(|who| print!(" {:>9}", milliseconds(row.time(*who))));
    print!(" ");
    others().for_each(|who| print!(" {:>9}", shown(row.ratio(who))));
    println!("  {}", told.join(", "));
    verdicts
}

//! `nd2 check`: every plane of every file, and the frames that are absent.

use crate::arguments::Arguments;
use crate::failure::{self, Done, Failure};
use crate::plane::{self, refused, At};
use crate::{open, register, text};
use nd2::{Reader, Refusal, Register};
use std::ffi::OsStr;
use std::io::{self, IsTerminal, Write};
use std::time::{Duration, Instant};

/// So many absent frames of a file are told, and so many refused planes.
const MOST_TOLD: u64 = 10;
/// After so many refused planes the rest of the file is left out.
const MOST_REFUSED: u64 = 1000;

pub fn run(arguments: Arguments) -> Done {
    let paths = arguments.rest()?;
    if paths.is_empty() {
        return Err(Failure::usage("FILE is missing", "check"));
    }
    let mut all_read = true;
    for path in &paths {
        match checked(path) {
            Ok(whole) => all_read &= whole,
            Err(Failure::Error(what)) => {
                failure::tell(&what);
                all_read = false;
            }
            Err(other) => return Err(other),
        }
    }
    match all_read {
        true => Ok(()),
        false => Err(Failure::Told),
    }
}

/// Checks one file; whether every plane was read.
fn checked(path: &OsStr) -> Result<bool, Failure> {
    let tally = open::with(path, |file| {
        let reader = open::reader(path, file)?;
        let register = register::read(path, &reader)?;
        Ok(Check::new(path, &reader, &register).run())
    })?;
    tally.print(path)?;
    Ok(tally.is_whole())
}

/// How many planes there are, and what became of them.
#[derive(Default)]
struct Tally {
    all: u128,
    read: u64,
    refused: u64,
    absent: u128,
}

impl Tally {
    fn is_whole(&self) -> bool {
        self.refused == 0 && self.absent == 0
    }

    fn tried(&self) -> u128 {
        u128::from(self.read) + u128::from(self.refused)
    }

    fn print(&self, path: &OsStr) -> io::Result<()> {
        let (name, all) = (text::of_os(path), text::many(self.all, "plane"));
        let mut out = io::stdout().lock();
        if self.is_whole() {
            return writeln!(out, "{name}: {all} read");
        }
        write!(out, "{name}: of {all} {} read", self.read)?;
        if self.refused > 0 {
            write!(out, ", {} refused", self.refused)?;
        }
        if self.absent > 0 {
            write!(out, ", {} absent", self.absent)?;
        }
        match self.tried() + self.absent < self.all {
            true => writeln!(out, ", the others were not tried"),
            false => writeln!(out),
        }
    }
}

struct Check<'f> {
    path: &'f OsStr,
    reader: &'f Reader<'f>,
    register: &'f Register<'f>,
    samples: Vec<u8>,
    tally: Tally,
    progress: Progress,
}

impl<'f> Check<'f> {
    fn new(path: &'f OsStr, reader: &'f Reader<'f>, register: &'f Register<'f>) -> Check<'f> {
        let components = u128::from(reader.summary().components);
        let tally = Tally {
            all: plane::count(reader.summary()),
            absent: u128::from(register.absent()) * components,
            ..Tally::default()
        };
        Check {
            path,
            reader,
            register,
            samples: Vec::new(),
            tally,
            progress: Progress::new(),
        }
    }

    /// Tells of the frames that are absent, and reads every plane of the others.
    fn run(mut self) -> Tally {
        self.absent();
        for at in planes(self.register, self.reader.summary().components) {
            if self.tally.refused >= MOST_REFUSED {
                break;
            }
            self.plane(at);
        }
        self.progress.clear();
        self.more("planes refused", self.tally.refused);
        self.tally
    }

    /// Tells the first absent frames. A map has at most 2,000,000 entries, so that they are soon found.
    fn absent(&self) {
        let absent = self.register.absent();
        let frames = self.register.iter().filter(|frame| !frame.is_present());
        for frame in frames.take(absent.min(MOST_TOLD) as usize) {
            let place = format!("scene {}, t {}, z {}", frame.scene, frame.t, frame.z);
            let name = text::of_os(self.path);
            failure::tell(&format!("{name}: frame at {place}: {}", Refusal::NO_FRAME));
        }
        self.more("frames absent", absent);
    }

    /// Tells how many more there are than were told.
    fn more(&self, what: &str, many: u64) {
        if many > MOST_TOLD {
            let name = text::of_os(self.path);
            failure::tell(&format!("{name}: {} more {what}", many - MOST_TOLD));
        }
    }

    fn plane(&mut self, at: At) {
        match self.read(at) {
            Ok(()) => self.tally.read += 1,
            Err(refusal) => {
                self.tally.refused += 1;
                if self.tally.refused <= MOST_TOLD {
                    self.progress.clear();
                    tell(refused(self.path, self.reader, at, refusal));
                }
            }
        }
        let (path, done, all) = (self.path, self.tally.tried(), self.tally.all);
        let there = all - self.tally.absent;
        self.progress
            .show(|| format!("{}: {done} of {there} planes", text::of_os(path)));
    }

    /// Reads a plane into the samples, which are made when the first plane needs them.
    fn read(&mut self, at: At) -> Result<(), Refusal> {
        let At { scene, t, c, z } = at;
        match self.reader.plane_into(scene, t, c, z, &mut self.samples) {
            Err(Refusal::BUFFER) => {
                self.samples = self.reader.plane(scene, t, c, z)?;
                Ok(())
            }
            answer => answer,
        }
    }
}

/// Every plane of the frames that the map has.
fn planes<'f>(register: &'f Register, components: u64) -> impl Iterator<Item = At> + 'f {
    register.iter_present().flat_map(move |frame| {
        (0..components).map(move |c| At {
            scene: frame.scene.into(),
            t: frame.t.into(),
            c,
            z: frame.z.into(),
        })
    })
}

fn tell(what: Failure) {
    if let Failure::Error(what) = what {
        failure::tell(&what);
    }
}

/// A line on the terminal that is written over, ten times a second at most; nothing where the standard error is none.
struct Progress {
    terminal: bool,
    shown: bool,
    next: Instant,
}

impl Progress {
    fn new() -> Progress {
        Progress {
            terminal: io::stderr().is_terminal(),
            shown: false,
            next: Instant::now() + Duration::from_millis(200),
        }
    }

    fn show(&mut self, line: impl FnOnce() -> String) {
        if self.terminal && Instant::now() >= self.next {
            let _ = write!(io::stderr(), "\r{}\x1b[K", line());
            self.shown = true;
            self.next = Instant::now() + Duration::from_millis(100);
        }
    }

    fn clear(&mut self) {
        if self.shown {
            let _ = write!(io::stderr(), "\r\x1b[K");
            self.shown = false;
        }
    }
}

//! `nd2 plane`: one plane, as a TIFF sheet, as a PGM or as it is.

use crate::arguments::Arguments;
use crate::failure::{Done, Failure};
use crate::{misnamed, open, output, text};
use nd2::{Axis, File, Reader, Refusal, Summary};
use std::ffi::{OsStr, OsString};
use std::fs;
use std::io::{self, Write};
use std::os::unix::fs::MetadataExt;
use std::path::Path;

#[derive(Clone, Copy, PartialEq, Eq)]
enum Form {
    Sheet,
    Pgm,
    Raw,
}

/// Scene, t, c and z as they were given.
struct Asked {
    scene: Option<u64>,
    t: Option<u64>,
    c: Option<u64>,
    z: Option<u64>,
}

/// The place of a plane.
#[derive(Clone, Copy)]
pub struct At {
    pub scene: u64,
    pub t: u64,
    pub c: u64,
    pub z: u64,
}

/// A plane as it is to be written.
struct Picture {
    form: Form,
    summary: Summary,
    bytes: Vec<u8>,
}

pub fn run(mut arguments: Arguments) -> Done {
    let asked = Asked {
        scene: arguments.number(&["--scene", "--point"])?,
        t: arguments.number(&["--t", "--time"])?,
        c: arguments.number(&["--c", "--channel", "--lamp"])?,
        z: arguments.number(&["--z", "--focus"])?,
    };
    let force = arguments.flag("--force");
    let output = arguments.value(&["-o"])?;
    let [path] = arguments.all(["FILE"])?;
    let (_, output) = output.ok_or_else(|| wrong("-o is missing"))?;
    let form = form(&output)?;
    different(&path, &output)?;
    output::free(&output, force)?;
    let picture = open::with(&path, |file| picture(&path, file, &asked, form))?;
    output::write(&output, force, |out| picture.write(out))
}

fn picture(path: &OsStr, file: &File, asked: &Asked, form: Form) -> Result<Picture, Failure> {
    let reader = open::reader(path, file)?;
    let summary = reader.summary();
    let at = asked.at(summary)?;
    if form == Form::Pgm && summary.bits == 32 {
        let what = "samples of 32 bits do not fit a PGM; write them to a .tif or a .raw file";
        return Err(Failure::at(text::of_os(path), what));
    }
    let read = match form {
        Form::Sheet => reader.sheet(at.scene, at.t, at.c, at.z),
        Form::Pgm | Form::Raw => reader.plane(at.scene, at.t, at.c, at.z),
    };
    Ok(Picture {
        form,
        summary: summary.clone(),
        bytes: read.map_err(|refusal| refused(path, &reader, at, refusal))?,
    })
}

fn wrong(what: impl Into<String>) -> Failure {
    Failure::usage(what, "plane")
}

fn form(output: &OsStr) -> Result<Form, Failure> {
    let ending = Path::new(output).extension().and_then(OsStr::to_str);
    match ending.map(str::to_ascii_lowercase).as_deref() {
        Some("tif" | "tiff") => Ok(Form::Sheet),
        Some("pgm") => Ok(Form::Pgm),
        Some("raw") => Ok(Form::Raw),
        _ => Err(wrong(format!(
            "{} ends in none of .tif, .tiff, .pgm and .raw",
            text::of_os(output)
        ))),
    }
}

impl Asked {
    /// An index that was not given is 0, where there is nothing to choose.
    fn at(&self, summary: &Summary) -> Result<At, Failure> {
        let index = |name: &str, given: Option<u64>, count: u64| match given {
            None if count > 1 => Err(wrong(format!("{name} is missing: {}", range(count)))),
            given => Ok(given.unwrap_or(0)),
        };
        Ok(At {
            scene: index("--scene (the point)", self.scene, summary.scenes())?,
            t: index("--t (the time)", self.t, summary.times())?,
            c: index("--c (the channel)", self.c, summary.components)?,
            z: index("--z (the focus step)", self.z, summary.steps())?,
        })
    }
}

/// How many planes the loops make; these may be more than 2^64.
pub fn count(summary: &Summary) -> u128 {
    u128::from(summary.frames()) * u128::from(summary.components)
}

impl At {
    /// The map's name for its frame.
    fn frame(&self, summary: &Summary) -> String {
        let index = |axis| match axis {
            Axis::T => self.t,
            Axis::Z => self.z,
            Axis::P => self.scene,
        };
        let loops = summary.loops.iter();
        let number = loops.fold(0u64, |n, one| {
            n.saturating_mul(one.count).saturating_add(index(one.axis))
        });
        format!("ImageDataSeq|{number}!")
    }
}

impl std::fmt::Display for At {
    fn fmt(&self, f: &mut std::fmt::Formatter<'_>) -> std::fmt::Result {
        write!(
            f,
            "scene {}, t {}, c {}, z {}",
            self.scene, self.t, self.c, self.z
        )
    }
}

/// The indices that there are of so many.
fn range(count: u64) -> String {
    match count {
        0 | 1 => "0".to_string(),
        count => format!("0 to {}", count - 1),
    }
}

/// What is wrong with a plane; of indices that are too large what they may be, of a frame in a chunk of another name which.
pub fn refused(path: &OsStr, reader: &Reader, at: At, refusal: Refusal) -> Failure {
    let s = reader.summary();
    let place = format!("{}: plane at {at}", text::of_os(path));
    if refusal != Refusal::INDEX {
        let frame = at.frame(s);
        return misnamed::failure(place, refusal, reader.bytes(), &[frame.as_bytes()]);
    }
    let indices = [
        ("scene", at.scene, s.scenes()),
        ("t", at.t, s.times()),
        ("c", at.c, s.components),
        ("z", at.z, s.steps()),
    ];
    let over = indices.iter().filter(|(_, index, count)| index >= count);
    let over: Vec<String> = over
        .map(|(name, _, count)| format!("{name} is {}", range(*count)))
        .collect();
    Failure::at(place, format!("{refusal}; {}", over.join(", ")))
}

/// A file is not written over the one that it is read from.
fn different(path: &OsStr, output: &OsString) -> Done {
    let number = |path: &OsStr| fs::metadata(path).map(|data| (data.dev(), data.ino()));
    match (number(path), number(output)) {
        (Ok(one), Ok(other)) if one == other => {
            Err(Failure::at(text::of_os(output), "is the file that is read"))
        }
        _ => Ok(()),
    }
}

impl Picture {
    fn write(&self, out: &mut impl Write) -> io::Result<()> {
        match self.form {
            Form::Sheet | Form::Raw => out.write_all(&self.bytes),
            Form::Pgm => write_pgm(out, &self.summary, &self.bytes),
        }
    }
}

/// A binary PGM, whose samples of 16 bits are big-endian.
fn write_pgm(out: &mut impl Write, summary: &Summary, samples: &[u8]) -> io::Result<()> {
    let most = if summary.bits == 8 { 255 } else { 65535 };
    write!(out, "P5\n{} {}\n{most}\n", summary.width, summary.height)?;
    if summary.bits == 8 {
        return out.write_all(samples);
    }
    for sample in samples.chunks_exact(2) {
        out.write_all(&[sample[1], sample[0]])?;
    }
    Ok(())
}

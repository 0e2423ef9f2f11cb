//! `nd2 register`: each frame, and where it is.

use crate::arguments::Arguments;
use crate::failure::{Done, Failure};
use crate::{json, open, text};
use nd2::{Reader, Register};
use std::ffi::OsStr;
use std::io::{self, BufWriter, Write};

pub fn run(mut arguments: Arguments) -> Done {
    let as_json = arguments.flag("--json");
    let [path] = arguments.all(["FILE"])?;
    open::with(&path, |file| {
        let reader = open::reader(&path, file)?;
        let register = read(&path, &reader)?;
        let mut out = BufWriter::new(io::stdout().lock());
        match as_json {
            true => print_json(&mut out, &register)?,
            false => print(&mut out, &register)?,
        }
        Ok(out.flush()?)
    })
}

/// The register of a file.
pub fn read<'f>(path: &OsStr, reader: &Reader<'f>) -> Result<Register<'f>, Failure> {
    let place = || format!("{}: register", text::of_os(path));
    reader
        .register()
        .map_err(|refusal| Failure::refused(place(), refusal))
}

fn print(out: &mut impl Write, register: &Register) -> io::Result<()> {
    writeln!(
        out,
        "{:>8} {:>8} {:>8} {:>8} {:>20}",
        "frame", "scene", "t", "z", "offset"
    )?;
    for frame in register {
        let (n, scene, t, z) = (frame.number, frame.scene, frame.t, frame.z);
        match frame.offset {
            Some(offset) => writeln!(out, "{n:>8} {scene:>8} {t:>8} {z:>8} {offset:>20}")?,
            None => writeln!(out, "{n:>8} {scene:>8} {t:>8} {z:>8} {:>20}", "absent")?,
        }
    }
    Ok(())
}

fn print_json(out: &mut impl Write, register: &Register) -> io::Result<()> {
    out.write_all(b"[")?;
    for frame in register {
        let record = json::object([
            ("frame", frame.number.to_string()),
            ("scene", frame.scene.to_string()),
            ("t", frame.t.to_string()),
            ("z", frame.z.to_string()),
            ("offset", json::or_null(frame.offset)),
        ]);
        let between = if frame.number == 0 { "\n" } else { ",\n" };
        write!(out, "{between}{record}")?;
    }
    out.write_all(b"\n]\n")
}

//! `nd2 sheet`: what is in a TIFF sheet, or why it is turned away.

use crate::arguments::Arguments;
use crate::failure::{Done, Failure};
use crate::{fault, json, open, text};
use nd2::{Refusal, Sheet};
use std::ffi::OsStr;
use std::io::{self, Write};

pub fn run(mut arguments: Arguments) -> Done {
    let as_json = arguments.flag("--json");
    let [path] = arguments.all(["FILE"])?;
    let (bytes, sheet) = open::with(&path, |file| {
        let sheet = Sheet::read(file).map_err(|refusal| refused(&path, file, refusal))?;
        Ok((file.len(), sheet))
    })?;
    let mut out = io::stdout().lock();
    match as_json {
        true => writeln!(out, "{}", told(&path, bytes, &sheet))?,
        false => print(&mut out, &path, bytes, &sheet)?,
    }
    Ok(out.flush()?)
}

/// The refusal, and of what is no sheet the first thing that is wrong with it.
fn refused(path: &OsStr, file: &[u8], refusal: Refusal) -> Failure {
    let place = text::of_os(path);
    match fault::of(file) {
        Some(fault) if refusal == Refusal::SHEET_LAYOUT => {
            Failure::at(place, format!("{refusal}; {fault}"))
        }
        _ => Failure::refused(place, refusal),
    }
}

fn print(out: &mut impl Write, path: &OsStr, bytes: usize, sheet: &Sheet) -> io::Result<()> {
    let (width, height, bits) = (sheet.width, sheet.height, sheet.bits);
    let [smallest, largest] = ends(sheet).map(|end| end.map_or("no number".into(), Number::shown));
    writeln!(out, "{}", text::of_os(path))?;
    writeln!(out, "  bytes       {bytes}")?;
    writeln!(
        out,
        "  plane       {width} x {height} samples of {bits} bits"
    )?;
    writeln!(out, "  smallest    {smallest}")?;
    writeln!(out, "  largest     {largest}")
}

fn told(path: &OsStr, bytes: usize, sheet: &Sheet) -> String {
    let (file, file_bytes) = json::path(path);
    let [smallest, largest] = ends(sheet).map(|end| end.map_or_else(json::null, Number::told));
    json::object([
        ("file", file),
        ("file_bytes", file_bytes),
        ("bytes", bytes.to_string()),
        ("width", sheet.width.to_string()),
        ("height", sheet.height.to_string()),
        ("bits", sheet.bits.to_string()),
        ("smallest", smallest),
        ("largest", largest),
    ])
}

/// A sample.
#[derive(Clone, Copy)]
enum Number {
    Whole(u16),
    Float(f32),
}

impl Number {
    fn shown(self) -> String {
        match self {
            Number::Whole(number) => number.to_string(),
            Number::Float(number) => number.to_string(),
        }
    }

    fn told(self) -> String {
        match self {
            Number::Whole(number) => number.to_string(),
            Number::Float(number) => json::float(number),
        }
    }
}

/// The smallest and the largest sample; none where no sample is a number.
fn ends(sheet: &Sheet) -> [Option<Number>; 2] {
    let samples = &sheet.samples;
    match sheet.bits {
        8 => whole(samples.iter().map(|&byte| byte.into())),
        16 => whole(
            samples
                .chunks_exact(2)
                .map(|s| u16::from_le_bytes([s[0], s[1]])),
        ),
        _ => {
            let float = |s: &[u8]| f32::from_le_bytes([s[0], s[1], s[2], s[3]]);
            floats(samples.chunks_exact(4).map(float))
        }
    }
}

fn whole(samples: impl Iterator<Item = u16> + Clone) -> [Option<Number>; 2] {
    [samples.clone().min(), samples.max()].map(|end| end.map(Number::Whole))
}

fn floats(samples: impl Iterator<Item = f32> + Clone) -> [Option<Number>; 2] {
    let numbers = samples.filter(|sample| !sample.is_nan());
    let ends = [numbers.clone().reduce(f32::min), numbers.reduce(f32::max)];
    ends.map(|end| end.map(Number::Float))
}

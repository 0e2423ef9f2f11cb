//! Writes a roller's file: roller PATH [POINTS STEPS LAMPS WIDTH HEIGHT]

use sample::Roller;
use std::ffi::{OsStr, OsString};
use std::fs::File;
use std::io::{self, BufWriter, Write};
use std::path::Path;
use std::process::ExitCode;

const USAGE: &str = "usage: roller PATH [POINTS STEPS LAMPS WIDTH HEIGHT]";
const NAMES: [&str; 5] = ["POINTS", "STEPS", "LAMPS", "WIDTH", "HEIGHT"];
/// A bench's roller with small planes, where nothing else is said.
const USUAL: [u32; 5] = [24, 11, 2, 64, 64];
/// A loop has no more values, and a frame no more components.
const MOST: [u32; 5] = [1_000_000, 1_000_000, 1024, u32::MAX, u32::MAX];
/// The bytes of a frame, and the planes of a file.
const MOST_BYTES: u64 = 1 << 32;
const MOST_PLANES: u64 = u32::MAX as u64;

fn main() -> ExitCode {
    let words: Vec<OsString> = std::env::args_os().skip(1).collect();
    let (path, sizes) = match asked(&words) {
        Ok(asked) => asked,
        Err(what) => {
            eprintln!("roller: {what}\n{USAGE}");
            return ExitCode::from(2);
        }
    };
    match written(path, sizes) {
        Ok(()) => ExitCode::SUCCESS,
        Err(error) => {
            eprintln!("{}: {error}", path.display());
            ExitCode::from(1)
        }
    }
}

/// The path and the sizes that the words ask for, all five or none of them.
fn asked(words: &[OsString]) -> Result<(&Path, [u32; 5]), String> {
    let (path, rest) = words.split_first().ok_or("PATH is missing")?;
    if path.to_string_lossy().starts_with('-') {
        return Err(format!("no such option: {}", path.to_string_lossy()));
    }
    let mut sizes = USUAL;
    match rest.len() {
        0 => {}
        5 => {
            for (i, word) in rest.iter().enumerate() {
                sizes[i] = size(i, word)?;
            }
        }
        few @ 1..=4 => return Err(format!("{} is missing", NAMES[few])),
        _ => return Err(format!("one word too many: {}", rest[5].to_string_lossy())),
    }
    fits(sizes)?;
    Ok((Path::new(path), sizes))
}

/// The size of a place, from 1 on.
fn size(i: usize, word: &OsStr) -> Result<u32, String> {
    let digits = word.to_str().filter(|word| !word.starts_with('+'));
    let number = digits.and_then(|digits| digits.parse().ok());
    let in_range = number.filter(|number| (1..=MOST[i]).contains(number));
    in_range.ok_or_else(|| {
        let (name, most, word) = (NAMES[i], MOST[i], word.to_string_lossy());
        format!("{name} is a whole number from 1 to {most}, not {word}")
    })
}

/// Whether a frame and a file of these sizes can be written.
fn fits(sizes: [u32; 5]) -> Result<(), String> {
    let [points, steps, lamps, width, height] = sizes.map(u128::from);
    if points * steps * lamps > MOST_PLANES.into() {
        return Err(format!("more than {MOST_PLANES} planes"));
    }
    if width * height * lamps * 2 > MOST_BYTES.into() {
        return Err(format!("a frame of more than {MOST_BYTES} bytes"));
    }
    Ok(())
}

fn written(path: &Path, sizes: [u32; 5]) -> io::Result<()> {
    let [points, steps, lamps, width, height] = sizes;
    let mut out = BufWriter::new(File::create(path)?);
    Roller::new(points, steps, lamps, width, height).write(&mut out)?;
    out.flush()?;
    let planes = points * steps * lamps;
    writeln!(io::stdout(), "{}: {planes} planes", path.display())
}

#[cfg(test)]
mod tests {
    use super::*;

    fn told(words: &str) -> Result<[u32; 5], String> {
        let words: Vec<OsString> = words.split_whitespace().map(OsString::from).collect();
        asked(&words).map(|(_, sizes)| sizes)
    }

    #[test]
    fn all_sizes_or_none() {
        assert_eq!(told("a.nd2"), Ok(USUAL));
        assert_eq!(told("a.nd2 1 2 3 4 5"), Ok([1, 2, 3, 4, 5]));
    }

    #[test]
    fn wrong_words_are_refused() {
        for (words, what) in [
            ("", "PATH is missing"),
            ("--help", "no such option: --help"),
            ("a.nd2 24 11", "LAMPS is missing"),
            ("a.nd2 1 2 3 4 5 6", "one word too many: 6"),
            (
                "a.nd2 x 11 2 64 64",
                "POINTS is a whole number from 1 to 1000000, not x",
            ),
            (
                "a.nd2 24 0 2 64 64",
                "STEPS is a whole number from 1 to 1000000, not 0",
            ),
            (
                "a.nd2 24 11 1025 64 64",
                "LAMPS is a whole number from 1 to 1024, not 1025",
            ),
            (
                "a.nd2 24 11 2 -1 64",
                "WIDTH is a whole number from 1 to 4294967295, not -1",
            ),
            (
                "a.nd2 24 11 2 64 99999999999",
                "HEIGHT is a whole number from 1 to 4294967295, not 99999999999",
            ),
            ("a.nd2 1000000 4295 1 1 1", "more than 4294967295 planes"),
            (
                "a.nd2 1 1 1 65536 65536",
                "a frame of more than 4294967296 bytes",
            ),
        ] {
            assert_eq!(told(words), Err(what.to_string()), "{words}");
        }
    }
}

//! `nd2 sample`: a small roller.

use crate::arguments::Arguments;
use crate::failure::Done;
use crate::{output, text};
use sample::Roller;
use std::io::{self, Write};

const POINTS: u32 = 24;
const STEPS: u32 = 11;
const LAMPS: u32 = 2;
/// Red, green and blue of a colour camera.
const COLOURS: u32 = 3;
const SIDE: u32 = 64;

pub fn run(mut arguments: Arguments) -> Done {
    let roller = roller(arguments.flag("--colour"));
    let force = arguments.flag("--force");
    let [path] = arguments.all(["OUT"])?;
    output::write(&path, force, |out| roller.write(out))?;
    let mut out = io::stdout().lock();
    let planes = roller.points * roller.steps * roller.lamps;
    writeln!(
        out,
        "{}: {planes} planes of {SIDE} x {SIDE} samples",
        text::of_os(&path)
    )?;
    Ok(())
}

/// The roller of a bench with lamps, or of a colour camera.
fn roller(colour: bool) -> Roller {
    let components = if colour { COLOURS } else { LAMPS };
    Roller {
        one_record: colour,
        ..Roller::new(POINTS, STEPS, components, SIDE, SIDE)
    }
}

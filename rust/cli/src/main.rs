//! nd2: what is in an ND2 file, its planes, its frames and its trees; and what is in a TIFF sheet of a plane.
//!
//! Exit status: 0 where all was done, 1 where something was refused or failed, 2 for wrong usage.

mod arguments;
mod check;
mod failure;
mod fault;
mod help;
mod info;
mod json;
mod misnamed;
mod open;
mod output;
mod plane;
mod register;
mod sample_file;
mod sheet;
mod signals;
mod text;
mod tree;

use arguments::Arguments;
use failure::{Done, Failure};
use std::ffi::{OsStr, OsString};
use std::io::Write;
use std::process::ExitCode;

const REFUSED: u8 = 1;
const WRONG_USAGE: u8 = 2;

/// A command: its name, what it does with its arguments, and its help.
type Command = (&'static str, fn(Arguments) -> Done, &'static str);

const COMMANDS: [Command; 7] = [
    ("info", info::run, help::INFO),
    ("plane", plane::run, help::PLANE),
    ("sheet", sheet::run, help::SHEET),
    ("register", register::run, help::REGISTER),
    ("tree", tree::run, help::TREE),
    ("check", check::run, help::CHECK),
    ("sample", sample_file::run, help::SAMPLE),
];

fn main() -> ExitCode {
    signals::watch();
    let words: Vec<OsString> = std::env::args_os().skip(1).collect();
    match run(words) {
        Ok(()) | Err(Failure::Closed) => ExitCode::SUCCESS,
        Err(Failure::Told) => ExitCode::from(REFUSED),
        Err(Failure::Error(what)) => {
            failure::tell(&what);
            ExitCode::from(REFUSED)
        }
        Err(Failure::Usage(what, command)) => {
            failure::tell(&what);
            failure::tell_help(command);
            ExitCode::from(WRONG_USAGE)
        }
    }
}

fn run(mut words: Vec<OsString>) -> Done {
    if words.is_empty() {
        return Err(Failure::Usage("no command".to_string(), None));
    }
    let first = words.remove(0);
    match first.to_str() {
        Some("--help" | "-h" | "help") => return print(help_on(&words)?),
        Some("--version" | "-V") => return print(concat!("nd2 ", env!("CARGO_PKG_VERSION"), "\n")),
        _ => {}
    }
    let (name, command, help) = found(&first)?;
    if arguments::asks_for_help(&words) {
        return print(help);
    }
    command(Arguments::new(words, name))
}

/// The command of a name.
fn found(name: &OsStr) -> Result<Command, Failure> {
    let command = COMMANDS.iter().find(|(command, ..)| name == *command);
    let what = match name.as_encoded_bytes().starts_with(b"-") {
        true => "option",
        false => "command",
    };
    let unknown = || Failure::Usage(format!("no such {what}: {}", text::of_os(name)), None);
    command.copied().ok_or_else(unknown)
}

/// The help on a command, on words, or on all.
fn help_on(words: &[OsString]) -> Result<&'static str, Failure> {
    match words {
        [] => Ok(help::ALL),
        [word] if word == "words" => Ok(help::WORDS),
        [word] if word == "help" => Ok(help::ALL),
        [command] => found(command).map(|(_, _, help)| help),
        [_, surplus, ..] => {
            let what = format!("one word too many: {}", text::of_os(surplus));
            Err(Failure::Usage(what, None))
        }
    }
}

fn print(text: &str) -> Done {
    let mut out = std::io::stdout().lock();
    out.write_all(text.as_bytes())?;
    Ok(out.flush()?)
}

//! How a command ends that does not end well.

use nd2::Refusal;
use std::fmt::Display;
use std::io::{self, Write};

pub enum Failure {
    /// What is wrong with the words of a command, and which command that is, if it is one.
    Usage(String, Option<&'static str>),
    /// What is wrong, and where.
    Error(String),
    /// Something is wrong that was told already.
    Told,
    /// Nobody reads the output any more, which is no error.
    Closed,
}

pub type Done = Result<(), Failure>;

impl Failure {
    pub fn usage(what: impl Into<String>, command: &'static str) -> Failure {
        Failure::Usage(what.into(), Some(command))
    }

    /// An error at a place.
    pub fn at(place: impl Display, what: impl Display) -> Failure {
        Failure::Error(format!("{place}: {what}"))
    }

    /// A refusal at a place; 25 is no memory here, since no command lends a short buffer.
    pub fn refused(place: impl Display, refusal: Refusal) -> Failure {
        match refusal {
            Refusal::BUFFER => Failure::at(place, format!("{refusal}; there is no memory for it")),
            _ => Failure::at(place, refusal),
        }
    }
}

/// An error of the standard output; those of files have their path and are built with `Failure::at`.
impl From<io::Error> for Failure {
    fn from(error: io::Error) -> Failure {
        match error.kind() {
            io::ErrorKind::BrokenPipe => Failure::Closed,
            _ => Failure::at("standard output", error),
        }
    }
}

/// Says something on the standard error; where that is closed, nobody is told.
pub fn tell(what: &str) {
    let _ = writeln!(io::stderr(), "nd2: {what}");
}

/// Says where more is said of a command, or of all.
pub fn tell_help(command: Option<&str>) {
    let command = command.map_or(String::new(), |command| format!(" {command}"));
    let _ = writeln!(io::stderr(), "try: nd2 help{command}");
}

//! The errors that the original builds.

use std::fmt;

#[derive(Debug)]
pub enum Error {
    Parse(String),
    Unsupported(String),
    Decode(String),
    OversizedAllocation {
        requested: usize,
        cap: usize,
    },
    SceneOutOfRange {
        scene: usize,
        count: usize,
    },
    OutOfRange {
        scene: usize,
        t: usize,
        c: usize,
        z: usize,
    },
    Io(std::io::Error),
}

pub type Result<T> = std::result::Result<T, Error>;

impl From<std::io::Error> for Error {
    fn from(error: std::io::Error) -> Self {
        Error::Io(error)
    }
}

impl fmt::Display for Error {
    fn fmt(&self, f: &mut fmt::Formatter<'_>) -> fmt::Result {
        match self {
            Error::Parse(text) | Error::Unsupported(text) | Error::Decode(text) => {
                f.write_str(text)
            }
            Error::OversizedAllocation { .. } => f.write_str("oversized"),
            Error::SceneOutOfRange { .. } | Error::OutOfRange { .. } => f.write_str("out of range"),
            Error::Io(error) => write!(f, "io: {error}"),
        }
    }
}

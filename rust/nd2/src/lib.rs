//! Reads Nikon ND2 files: uncompressed trees and whole uncompressed planes.
//!
//! Every answer comes from the proved reader, through its C interface (`include/nd2.h`), but for the [`Register`] of more
//! than 2,000,000 frames; this crate lends it the buffers and hands out what it wrote as Rust values. Nothing here panics,
//! whatever the file's bytes are: a file that cannot be read gives a [`Refusal`], which has a number, a trade word and a
//! sentence.
//!
//! ```
//! # fn main() -> Result<(), Box<dyn std::error::Error>> {
//! # let path = std::env::temp_dir().join(format!("nd2-doc-{}.nd2", std::process::id()));
//! # std::fs::write(&path, sample::roller(3, 2, 2, 8, 4))?;
//! let file = nd2::File::open_path(&path)?;
//! let reader = file.reader()?;
//! let summary = reader.summary();
//! println!("{} x {}, {} bits", summary.width, summary.height, summary.bits);
//! for channel in reader.channels()? {
//!     println!("{}", channel.name.as_deref().unwrap_or("unnamed"));
//! }
//! // point 2, time 0, component 1, focus step 0
//! let samples = reader.plane(2, 0, 1, 0)?;
//! assert_eq!(samples.len(), 8 * 4 * 2);
//! # std::fs::remove_file(&path)?;
//! # Ok(())
//! # }
//! ```
//!
//! The file need not be on a disk: [`Reader::open`] takes any bytes. [`File::open_path`] reads a file into memory;
//! [`File::map_path`] maps one, and is unsafe, since nobody may change the file then. [`Reader::sheet`] gives a plane as a
//! TIFF sheet, and [`Sheet::read`] reads one. [`Reader::picometres`] gives the size of a pixel as a whole number.

#![warn(missing_docs)]

// the lengths of the C interface, of files and of mappings are taken to be of 64 bits
const _: () = assert!(usize::BITS == 64, "nd2 is for machines of 64 bits");

mod bytes;
mod channel;
mod entries;
mod file;
mod mapping;
pub mod raw;
mod reader;
mod refusal;
mod register;
mod sheet;
mod summary;
mod text;
mod tree;

pub use channel::Channel;
pub use file::File;
pub use reader::Reader;
pub use refusal::Refusal;
pub use register::{Frame, Frames, Register};
pub use sheet::Sheet;
pub use summary::{Axis, Loop, State, Summary, ZStep};
pub use tree::{Entry, Tree, Value};

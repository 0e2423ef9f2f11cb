//! Document 01 in plain Rust, over byte slices: all calls, with what they leave in lent bytes.
//!
//! The proved reader and the original are held against it. It shares no code with them, but it was written with the original
//! and the readings in docs/DECISIONS.md at hand, so its agreement does not test those readings anew.
//!
//! One file for each of document 01's headings; `types` has what several of them speak of, `calls` the calls themselves. Of
//! document 02 it has the first change request, in `channels`, the second, in `sheets`, the fourth, in `numbers`, the fifth,
//! in `picometres`, whose whole numbers of any length are in `big`, and the sixth, in `chunks` and `map`. No file uses itself
//! by way of others (tests/layers.rs).

pub mod attributes;
pub mod big;
pub mod bytes;
pub mod calibration;
pub mod calls;
pub mod channels;
pub mod chunks;
pub mod loops;
pub mod map;
pub mod names;
pub mod numbers;
pub mod picometres;
pub mod refusal;
pub mod sheets;
pub mod summary;
pub mod trees;
pub mod types;
pub mod values;

pub use calls::{channels, open, plane, read_plane, register, tree};
pub use channels::Channel;
pub use picometres::picometres;
pub use sheets::{read_sheet, sheet, Sheet};
pub use summary::Summary;
pub use types::{Axis, Loop, Range};

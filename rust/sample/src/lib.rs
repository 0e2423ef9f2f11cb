//! Writes ND2 files: trees record by record, chunks and the map (`tree`, `file`), the usual parts of a file (`parts`),
//! whole rollers (`roller`), random files, good and damaged, from a seed (`random`), files at the limits
//! (`corner`), files of single fields that are read as whole numbers (`whole`), files of single pixel sizes (`pixel`), and
//! files whose map leads to chunks of other names (`misnamed`).

pub mod corner;
pub mod file;
pub mod misnamed;
pub mod parts;
pub mod pixel;
pub mod random;
pub mod rng;
pub mod roller;
pub mod tree;
pub mod whole;

pub use file::Nd2;
pub use rng::Rng;
pub use roller::{roller, Roller};

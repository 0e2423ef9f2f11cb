//! Channels: what a component is called, and its colour.

use crate::bytes::u64_at;
use crate::raw::CHANNEL_BYTES;
use crate::text::decoded;

/// One component of the frames. Components that a colour camera described together are equal.
#[derive(Clone, Debug, Default, PartialEq, Eq)]
pub struct Channel {
    /// Its name, if the file has one. A lone surrogate in it is U+FFFD.
    pub name: Option<String>,
    /// Red, green and blue, if the file has a colour.
    pub color: Option<(u8, u8, u8)>,
}

impl Channel {
    fn read(file: &[u8], record: &[u8]) -> Channel {
        let word = |i: usize| u64_at(record, 8 * i);
        let part = |i: usize| word(i) as u8;
        Channel {
            name: (word(0) == 1).then(|| decoded(file, word(1), word(2))),
            color: (word(3) == 1).then(|| (part(4), part(5), part(6))),
        }
    }

    /// The channels of a row of records.
    pub(crate) fn read_all(file: &[u8], row: &[u8]) -> Vec<Channel> {
        let records = row.chunks_exact(CHANNEL_BYTES);
        records.map(|record| Channel::read(file, record)).collect()
    }
}

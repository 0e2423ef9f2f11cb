//! UTF-16 in a file, as text: each lone surrogate becomes U+FFFD.

use crate::bytes::part;

/// The text of so many units at a position.
pub fn decoded(file: &[u8], start: u64, units: u64) -> String {
    let bytes = part(file, start, units.saturating_mul(2));
    let units = bytes
        .chunks_exact(2)
        .map(|unit| u16::from_le_bytes([unit[0], unit[1]]));
    let letters = char::decode_utf16(units);
    letters
        .map(|letter| letter.unwrap_or(char::REPLACEMENT_CHARACTER))
        .collect()
}

#[cfg(test)]
mod tests {
    use super::*;

    fn written(units: &[u16]) -> Vec<u8> {
        units.iter().flat_map(|unit| unit.to_le_bytes()).collect()
    }

    #[test]
    fn pairs_are_joined_and_lone_surrogates_replaced() {
        let file = written(&[0x61, 0xD83D, 0xDE00, 0xD800, 0x62, 0xDC00]);
        assert_eq!(decoded(&file, 0, 6), "a\u{1F600}\u{FFFD}b\u{FFFD}");
        assert_eq!(decoded(&file, 0, 2), "a\u{FFFD}");
    }

    #[test]
    fn what_leaves_the_file_is_left_out() {
        assert_eq!(decoded(&written(&[0x61]), 0, u64::MAX), "a");
        assert_eq!(decoded(&[], u64::MAX, 3), "");
    }
}

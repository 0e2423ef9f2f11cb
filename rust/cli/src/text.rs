//! Text that comes from files and from the command's words, made fit to be shown.

use std::ffi::OsStr;
use std::os::unix::ffi::OsStrExt;

/// Text without control characters, which could do anything to a terminal, and without those that turn the direction of what
/// follows: they are written as \u{..}.
pub fn shown(text: &str) -> String {
    let mut out = String::with_capacity(text.len());
    text.chars().for_each(|letter| push(&mut out, letter));
    out
}

fn push(out: &mut String, letter: char) {
    match letter.is_control() || turns(letter) {
        true => out.extend(letter.escape_unicode()),
        false => out.push(letter),
    }
}

/// Unicode's marks of direction, and its ends of lines and paragraphs.
fn turns(letter: char) -> bool {
    matches!(letter, '\u{61c}' | '\u{200e}' | '\u{200f}' | '\u{2028}'..='\u{202e}' | '\u{2066}'..='\u{2069}')
}

/// A path or a word of the command, without loss: a byte that is no UTF-8 is \xNN, a control character \u{..}, and a
/// backslash \\. No word at all is ''.
pub fn of_os(word: &OsStr) -> String {
    match word.is_empty() {
        true => "''".to_string(),
        false => of_bytes(word.as_bytes()),
    }
}

/// Bytes in the same way.
pub fn of_bytes(bytes: &[u8]) -> String {
    let mut out = String::with_capacity(bytes.len());
    for part in bytes.utf8_chunks() {
        for letter in part.valid().chars() {
            match letter {
                '\\' => out.push_str("\\\\"),
                letter => push(&mut out, letter),
            }
        }
        for byte in part.invalid() {
            out.push_str(&format!("\\x{byte:02x}"));
        }
    }
    out
}

/// So many of a thing, whose word is in the plural unless there is just one.
pub fn many(count: impl Into<u128>, thing: &str) -> String {
    match count.into() {
        1 => format!("1 {thing}"),
        count => format!("{count} {thing}s"),
    }
}

#[cfg(test)]
mod tests {
    use super::*;

    #[test]
    fn one_thing_is_no_plural() {
        let told = [0u64, 1, 2].map(|count| many(count, "plane"));
        assert_eq!(told, ["0 planes", "1 plane", "2 planes"]);
    }

    #[test]
    fn control_characters_are_written_out() {
        assert_eq!(shown("a\u{1b}[2J\nü"), "a\\u{1b}[2J\\u{a}ü");
        assert_eq!(
            shown("\u{7f}\u{80}\u{9b}\u{9f}\u{a0}"),
            "\\u{7f}\\u{80}\\u{9b}\\u{9f}\u{a0}"
        );
    }

    #[test]
    fn marks_of_direction_are_written_out() {
        assert_eq!(
            shown("a\u{202e}b\u{2066}\u{200f}"),
            "a\\u{202e}b\\u{2066}\\u{200f}"
        );
        assert_eq!(
            shown("\u{2027}\u{202f}\u{2065}\u{206a}"),
            "\u{2027}\u{202f}\u{2065}\u{206a}"
        );
    }

    #[test]
    fn a_word_of_no_letters_is_seen() {
        assert_eq!(of_os(OsStr::new("")), "''");
    }

    #[test]
    fn bytes_are_shown_without_loss() {
        assert_eq!(of_bytes(b"a\xFFb\xC3\xBC\xE2\x82"), "a\\xffbü\\xe2\\x82");
        assert_eq!(of_bytes(b"a\\xff\n"), "a\\\\xff\\u{a}");
    }
}

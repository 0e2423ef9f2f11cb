//! JSON, as much as the commands write.

use crate::text;
use std::ffi::OsStr;
use std::fmt::Display;
use std::os::unix::ffi::OsStrExt;

/// A string with its quotes, all control characters escaped.
pub fn string(text: &str) -> String {
    let mut out = String::from("\"");
    for letter in text.chars() {
        match letter {
            '"' => out.push_str("\\\""),
            '\\' => out.push_str("\\\\"),
            letter if letter.is_control() => out.push_str(&format!("\\u{:04x}", letter as u32)),
            letter => out.push(letter),
        }
    }
    out.push('"');
    out
}

/// A path, and its bytes in hexadecimal digits where it is no UTF-8: there the path is written as in text.
pub fn path(path: &OsStr) -> (String, String) {
    match path.to_str() {
        Some(letters) => (string(letters), null()),
        None => {
            let digits = path.as_bytes().iter().map(|byte| format!("{byte:02x}"));
            (
                string(&text::of_os(path)),
                string(&digits.collect::<String>()),
            )
        }
    }
}

/// A number; one that is not finite is null.
pub fn float(number: f32) -> String {
    match number.is_finite() {
        true => number.to_string(),
        false => null(),
    }
}

pub fn null() -> String {
    "null".to_string()
}

pub fn or_null<T: Display>(value: Option<T>) -> String {
    value.map_or_else(null, |value| value.to_string())
}

pub fn array(items: impl IntoIterator<Item = String>) -> String {
    let items: Vec<String> = items.into_iter().collect();
    format!("[{}]", items.join(", "))
}

pub fn object<const N: usize>(fields: [(&str, String); N]) -> String {
    let fields = fields.map(|(name, value)| format!("{}: {value}", string(name)));
    format!("{{{}}}", fields.join(", "))
}

#[cfg(test)]
mod tests {
    use super::*;

    #[test]
    fn strings_are_escaped() {
        assert_eq!(string("a\"b\\c\n\u{1}ü"), "\"a\\\"b\\\\c\\u000a\\u0001ü\"");
    }

    #[test]
    fn no_control_character_is_left() {
        assert_eq!(
            string("\u{7f}\u{80}\u{9b}\u{9f}\u{a0}"),
            "\"\\u007f\\u0080\\u009b\\u009f\u{a0}\""
        );
    }

    #[test]
    fn paths_are_told_without_loss() {
        let of = |bytes: &[u8]| path(OsStr::from_bytes(bytes));
        let told = |path: &str, bytes: &str| (path.to_string(), bytes.to_string());
        assert_eq!(of("a\\ü".as_bytes()), told("\"a\\\\ü\"", "null"));
        let shown = r#""a\\\\\\xff""#;
        assert_eq!(of(b"a\\\xFF"), told(shown, "\"615cff\""));
    }

    #[test]
    fn what_is_no_number_is_null() {
        assert_eq!(float(f32::INFINITY), "null");
        assert_eq!(float(0.325), "0.325");
        assert_eq!(or_null(None::<u64>), "null");
    }

    #[test]
    fn objects_and_arrays() {
        let one = object([("a", array(["1".to_string(), null()]))]);
        assert_eq!(one, "{\"a\": [1, null]}");
    }
}

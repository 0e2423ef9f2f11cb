//! The words after a command.

use crate::failure::Failure;
use crate::text::of_os;
use std::ffi::{OsStr, OsString};
use std::os::unix::ffi::OsStrExt;

/// The words that are not taken yet, and the command's name.
pub struct Arguments {
    words: Vec<OsString>,
    command: &'static str,
}

/// Whether `--help` is among the words that may be options.
pub fn asks_for_help(words: &[OsString]) -> bool {
    let options = words.iter().take_while(|word| *word != "--");
    options
        .into_iter()
        .any(|word| word == "--help" || word == "-h")
}

impl Arguments {
    pub fn new(words: Vec<OsString>, command: &'static str) -> Arguments {
        Arguments { words, command }
    }

    pub fn wrong(&self, what: impl Into<String>) -> Failure {
        Failure::usage(what, self.command)
    }

    /// Where the options end: at `--`, or at the last word.
    fn options(&self) -> usize {
        let end = self.words.iter().position(|word| word == "--");
        end.unwrap_or(self.words.len())
    }

    fn place(&self, matches: impl Fn(&OsStr) -> bool) -> Option<usize> {
        self.words[..self.options()]
            .iter()
            .position(|word| matches(word))
    }

    /// Takes a flag; whether it was there.
    pub fn flag(&mut self, name: &str) -> bool {
        let place = self.place(|word| word == name);
        place.map(|place| self.words.remove(place)).is_some()
    }

    /// The place of an option that has any of these names, and the one that it has.
    fn option<'n>(&self, names: &[&'n str]) -> Option<(usize, &'n str)> {
        let name_of = |word: &OsString| {
            let mut names = names.iter();
            names.find(|name| word == **name || after(word, name).is_some())
        };
        let words = self.words[..self.options()].iter().enumerate();
        let mut found = words.filter_map(|(place, word)| Some((place, *name_of(word)?)));
        found.next()
    }

    /// Takes an option and its value: `name value` or `name=value`, with any of its names.
    pub fn value(&mut self, names: &[&str]) -> Result<Option<(String, OsString)>, Failure> {
        let Some((place, name)) = self.option(names) else {
            return Ok(None);
        };
        let word = self.words.remove(place);
        let value = match after(&word, name) {
            Some(value) => value.to_os_string(),
            None if place < self.options() => self.words.remove(place),
            None => return Err(self.wrong(format!("{name} needs a value"))),
        };
        match self.option(names) {
            Some((_, again)) if again == name => Err(self.wrong(format!("{name} is there twice"))),
            Some((_, other)) => Err(self.wrong(format!("{name} and {other} are one option"))),
            None => Ok(Some((name.to_string(), value))),
        }
    }

    /// Takes an option whose value is a whole number.
    pub fn number(&mut self, names: &[&str]) -> Result<Option<u64>, Failure> {
        let Some((name, value)) = self.value(names)? else {
            return Ok(None);
        };
        let digits = value.to_str().filter(|value| !value.starts_with('+'));
        let number = digits.and_then(|digits| digits.parse().ok());
        let value = of_os(&value);
        let wrong = || self.wrong(format!("{name} needs a whole number, not {value}"));
        number.ok_or_else(wrong).map(Some)
    }

    /// All words that are left, of which none may be an option.
    pub fn rest(mut self) -> Result<Vec<OsString>, Failure> {
        let dash = |word: &OsStr| word.as_bytes().starts_with(b"-") && word.len() > 1;
        if let Some(place) = self.place(dash) {
            let what = format!("no such option: {}", of_os(&self.words[place]));
            return Err(self.wrong(what));
        }
        let end = self.options();
        if end < self.words.len() {
            self.words.remove(end);
        }
        Ok(self.words)
    }

    /// The words that are left, if they are as many as their names.
    pub fn all<const N: usize>(self, names: [&str; N]) -> Result<[OsString; N], Failure> {
        let command = self.command;
        let rest = self.rest()?;
        let many = rest.len();
        if let Some(surplus) = rest.get(N) {
            let what = format!("one word too many: {}", of_os(surplus));
            return Err(Failure::usage(what, command));
        }
        let missing = |_| Failure::usage(format!("{} is missing", names[many]), command);
        rest.try_into().map_err(missing)
    }
}

/// What stands after `name=`.
fn after<'w>(word: &'w OsStr, name: &str) -> Option<&'w OsStr> {
    let value = word.as_bytes().strip_prefix(name.as_bytes())?;
    let value = value.strip_prefix(b"=")?;
    Some(OsStr::from_bytes(value))
}

#[cfg(test)]
mod tests {
    use super::*;

    fn arguments(words: &str) -> Arguments {
        Arguments::new(words.split_whitespace().map(OsString::from).collect(), "")
    }

    #[test]
    fn options_stand_anywhere_and_the_rest_is_left() {
        let mut a = arguments("file --t 3 --c=4 --json out");
        assert_eq!(a.number(&["--t"]).ok(), Some(Some(3)));
        assert_eq!(a.number(&["--c"]).ok(), Some(Some(4)));
        assert_eq!(a.number(&["--z"]).ok(), Some(None));
        assert!(a.flag("--json") && !a.flag("--json"));
        assert_eq!(a.rest().ok(), Some(vec!["file".into(), "out".into()]));
    }

    #[test]
    fn an_option_has_several_names() {
        for words in ["--c 3", "--lamp=3", "--channel 3"] {
            let mut a = arguments(words);
            let names = ["--c", "--channel", "--lamp"];
            assert_eq!(a.number(&names).ok(), Some(Some(3)), "{words}");
            assert_eq!(a.rest().ok(), Some(vec![]));
        }
        let told = |words: &str| match arguments(words).number(&["--c", "--lamp"]) {
            Err(Failure::Usage(what, _)) => what,
            _ => String::new(),
        };
        assert_eq!(told("--c 1 --c 1"), "--c is there twice");
        assert_eq!(told("--lamp 1 --c=1"), "--lamp and --c are one option");
        assert_eq!(told("--lamp x"), "--lamp needs a whole number, not x");
        assert_eq!(told("--lamp"), "--lamp needs a value");
    }

    #[test]
    fn nothing_after_two_dashes_is_an_option() {
        let mut a = arguments("-- --json -o");
        assert!(!a.flag("--json"));
        assert_eq!(a.rest().ok(), Some(vec!["--json".into(), "-o".into()]));
    }

    #[test]
    fn wrong_words_are_wrong() {
        let number = |words: &str| arguments(words).number(&["--t"]);
        assert!(number("--t").is_err());
        assert!(number("--t 1 --t=2").is_err());
        assert!(number("--t -1").is_err());
        assert!(number("--t +1").is_err());
        assert!(number("--t=").is_err());
        assert!(number("--t 99999999999999999999").is_err());
        assert!(arguments("--what").rest().is_err());
        assert!(arguments("a b").all(["FILE"]).is_err());
        assert!(arguments("a").all(["FILE", "CHUNK"]).is_err());
    }
}

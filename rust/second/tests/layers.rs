//! No file of this crate uses itself by way of others: its modules lie in layers.

use std::collections::BTreeMap;
use std::fs;
use std::path::Path;

/// Each module, and the modules that it names.
type Uses = BTreeMap<String, Vec<String>>;

/// The crate's root, which stands for every name that is no module.
const ROOT: &str = "lib";

/// The sources of this crate, by module.
fn sources() -> BTreeMap<String, String> {
    let folder = Path::new(env!("CARGO_MANIFEST_DIR")).join("src");
    let files = fs::read_dir(folder).unwrap().map(|file| file.unwrap());
    let source = |path: &Path| {
        let module = path.file_stem().unwrap().to_str().unwrap().to_string();
        (module, fs::read_to_string(path).unwrap())
    };
    files.map(|file| source(&file.path())).collect()
}

/// The text without its comments.
fn code(text: &str) -> String {
    let lines = text.lines().map(|line| line.split("//").next().unwrap());
    lines.flat_map(|line| [line, "\n"]).collect()
}

fn first_word(text: &str) -> String {
    let word = |letter: &char| letter.is_alphanumeric() || *letter == '_';
    text.trim_start().chars().take_while(word).collect()
}

/// What stands between braces, in parts at the commas that are in no braces of their own.
fn in_braces(text: &str) -> Vec<&str> {
    let (mut depth, mut start, mut parts) = (0, 0, Vec::new());
    for (at, letter) in text.char_indices() {
        let ends_part = depth == 0 && matches!(letter, ',' | '}');
        if ends_part {
            parts.push(&text[start..at]);
            start = at + 1;
        }
        match letter {
            '}' if depth == 0 => break,
            '{' => depth += 1,
            '}' => depth -= 1,
            _ => {}
        }
    }
    parts
}

/// What is named behind a word such as `crate::`, also in braces.
fn named(text: &str, word: &str) -> Vec<String> {
    let code = code(text);
    let named = code.split(word).skip(1);
    let words = named.flat_map(|rest| match rest.strip_prefix('{') {
        Some(inner) => in_braces(inner).into_iter().map(first_word).collect(),
        None => vec![first_word(rest)],
    });
    words.collect()
}

/// The modules that a text names. What the root gives again is named by way of the root.
fn used(text: &str, is_module: impl Fn(&String) -> bool) -> Vec<String> {
    let from_root = named(text, "crate::").into_iter();
    let module = |name| {
        if is_module(&name) {
            name
        } else {
            ROOT.to_string()
        }
    };
    let beside = named(text, "super::").into_iter().filter(&is_module);
    from_root.map(module).chain(beside).collect()
}

fn uses(sources: &BTreeMap<String, String>) -> Uses {
    let is_module = |name: &String| sources.contains_key(name);
    let all = || sources.keys().filter(|&name| name != ROOT).cloned();
    let one = |(name, text): (&String, &String)| match name.as_str() {
        ROOT => (name.clone(), all().collect()),
        _ => (name.clone(), used(text, is_module)),
    };
    sources.iter().map(one).collect()
}

/// A circle that a path of modules ends in, if it goes on to one.
fn circle(uses: &Uses, path: &mut Vec<String>, done: &mut Vec<String>) -> Option<Vec<String>> {
    let last = path.last()?.clone();
    for next in uses.get(&last)? {
        if let Some(start) = path.iter().position(|module| module == next) {
            return Some(path[start..].to_vec());
        }
        if done.contains(next) {
            continue;
        }
        path.push(next.clone());
        if let Some(found) = circle(uses, path, done) {
            return Some(found);
        }
        path.pop();
    }
    done.push(last);
    None
}

fn any_circle(uses: &Uses) -> Option<Vec<String>> {
    let done = &mut Vec::new();
    let mut modules = uses.keys();
    modules.find_map(|module| circle(uses, &mut vec![module.clone()], done))
}

#[test]
fn no_module_uses_itself_by_way_of_others() {
    let uses = uses(&sources());
    assert!(uses.len() > 10 && uses["values"].contains(&"trees".to_string()));
    assert_eq!(any_circle(&uses), None);
}

/// The circle among modules of these texts, as one line.
fn told(texts: &[(&str, &str)]) -> Option<String> {
    let own = |(name, text): &(&str, &str)| (name.to_string(), text.to_string());
    let circle = any_circle(&uses(&texts.iter().map(own).collect()));
    circle.map(|circle| circle.join(" "))
}

#[test]
fn a_circle_is_found() {
    let layers = [
        ("a", "use crate::{b::X, c::{self, Y}, d};"),
        ("b", "use crate::c; // not crate::a"),
        ("c", "fn f() -> crate::d::Z {}"),
        ("d", ""),
    ];
    assert_eq!(told(&layers), None);
    let with = |text| told(&[&layers[..3], &[("d", text)]].concat());
    assert_eq!(with("use crate::b;").as_deref(), Some("b c d"));
    assert_eq!(with("use crate::{c};").as_deref(), Some("c d"));
    assert_eq!(with("use super::b::X;").as_deref(), Some("b c d"));
    assert_eq!(with("use crate::d;").as_deref(), Some("d"));
    // by way of what the root gives again
    let again = [("a", "use crate::Summary;"), ("lib", "mod a;")];
    assert_eq!(told(&again).as_deref(), Some("a lib"));
}

//! The program runs through on small files. Whether small files meet the targets is not looked at.

use std::process::{Command, Output};

fn bench(words: &[&str]) -> Output {
    let mut command = Command::new(env!("CARGO_BIN_EXE_bench"));
    command.args(words).output().unwrap()
}

/// What the program prints on small files.
fn told_of_small(more: &[&str]) -> String {
    let small = "--side 16 --roller-side 4 --entries 100 --names 20 --shrink 1000 --repetitions 1";
    let words: Vec<&str> = small.split(' ').chain(more.iter().copied()).collect();
    let output = bench(&words);
    let told = String::from_utf8(output.stdout).unwrap();
    assert!(matches!(output.status.code(), Some(0 | 1)), "{told}");
    told
}

#[test]
fn every_case_is_in_the_table() {
    let told = told_of_small(&[]);
    for part in [
        "plane, 1 component of 16 bits ",
        "plane, 1 component of 16 bits, in a row",
        "plane, 1 component of 32 bits, padded rows of 1024 ",
        "plane, 1 component of 32 bits, padded rows of 1024, in a row",
        "1.1 x memcpy: ",
        "plane, 2 components of 32 bits",
        "plane, 3 components of 8 bits",
        "1.2 x gather: ",
        "sheet, 1 component of 16 bits ",
        "sheet, 1 component of 8 bits ",
        "sheet, 3 components of 32 bits",
        "sheet read, 16 bits",
        "1.1 x plane: ",
        "open a roller, 4 x 4",
        "register of a roller",
        "pixel size of a roller",
        "open, then all 528 planes",
        "open a map, 100 entries, frames",
        "open a map, 100 entries, one length",
        "open a map, 100 entries, mixed lengths",
        "plane of 4 x 4, 100 entries, mixed lengths",
        "3 x memcpy: ",
        "register of 98 frames",
        "count 20 names, first units differ",
        "count 20 names, last units differ",
        "count 20 names, last, all above U+E000",
        "walk 20 names, none a level",
        "walk 20 names, each a level",
        "names that begin with a pair",
        "0.5 x original: not run",
        "2 x original: not run",
        "bytes at most, in nd2_",
        "(ND2_STACK_BYTES 65536: met)",
    ] {
        assert!(told.contains(part), "{part:?} is not in {told}");
    }
}

#[test]
fn targets_that_were_not_run_are_counted() {
    let told = told_of_small(&[]);
    let not_run = told.matches(": not run").count();
    let tally = format!(" missed, {not_run} not run (they need the original or a C compiler).");
    assert!(told.contains(&tally), "{tally:?} is not in {told}");
    // three planes, the register and all planes of a roller, and ten families of three files; without a C compiler six more
    assert!([35, 41].contains(&not_run), "{told}");
}

#[test]
fn each_odd_family_has_three_sizes_and_tells_how_its_time_grows() {
    let told = told_of_small(&["--only", "odd", "--seconds", "1"]);
    for family in [
        "names that begin with a pair ",
        "names that begin with a pair, one twice",
        "names, 252 first units alike",
        "names, 252 last units alike",
        "names over 50 levels each ",
        "names over 50 levels each, one twice",
        "unnamed in 31 nestings",
        "names, each an empty level",
        "names counted, last units differ",
        "names counted, half of them twice",
    ] {
        let rows = told.lines().filter(|line| line.contains(family));
        assert_eq!(rows.count(), 3, "{family:?} in {told}");
    }
    let grows = told.matches("    size^x: proved ").count();
    assert_eq!(grows, 10, "{told}");
    assert!(told.contains(" in both; original not run"), "{told}");
}

#[test]
fn wrong_words_give_the_usage() {
    for words in [
        &["--what"][..],
        &["--side"],
        &["--side", "0"],
        &["--only", "all"],
        &["--names", "50001"],
        &["--shrink", "0"],
        &["--seconds"],
        &["--before"],
        &["a", "b"],
    ] {
        let output = bench(words);
        assert_eq!(output.status.code(), Some(2));
        assert!(String::from_utf8(output.stderr)
            .unwrap()
            .starts_with("usage: bench"));
    }
}

/// The folder that this build's library was linked from.
const LIBRARY_FOLDER: &str = env!("ND2_LIBRARY_FOLDER");

#[test]
fn an_earlier_build_takes_its_turns() {
    let words = ["--only", "names", "--names", "20", "--repetitions", "1"];
    let alone = bench(&words);
    let beside = bench(&[&words[..], &["--before", LIBRARY_FOLDER]].concat());
    // the columns of milliseconds and of ratios
    for (output, known) in [(alone, false), (beside, true)] {
        let told = String::from_utf8(output.stdout).unwrap();
        let row = told.lines().find(|line| line.starts_with("count 20 names"));
        let columns: Vec<&str> = row.unwrap()[60..].split_whitespace().collect();
        assert_eq!(columns.len(), 14, "{told}");
        assert_eq!(
            [columns[6] != "-", columns[12] != "-"],
            [known; 2],
            "{told}"
        );
    }
}

#[test]
fn a_folder_without_what_it_should_have_is_told() {
    for words in [&["/no/such/folder"][..], &["--before", "/no/such/folder"]] {
        let output = bench(words);
        assert_eq!(output.status.code(), Some(2));
        let told = String::from_utf8(output.stderr).unwrap();
        assert!(told.starts_with("bench: "), "{told}");
        assert!(told.contains("/no/such/folder"), "{told}");
    }
}

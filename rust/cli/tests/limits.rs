//! Files of a few hundred bytes that say they have more frames than any memory holds.

mod common;

use common::json::{parse, Json};
use common::{Folder, Ran};
use sample::{corner, parts, Nd2};
use std::fs::File;
use std::io::{BufRead, BufReader};
use std::process::Stdio;

/// A file of loops with these counts, and with these frames, of one sample each.
fn looped(counts: [u32; 3], frames: &[u64]) -> Folder {
    let folder = Folder::new();
    let kinds = [parts::TIME, parts::POINTS, parts::FOCUS];
    let loops = [0, 1, 2].map(|i| (kinds[i], parts::counted(counts[i])));
    let mut file = Nd2::new();
    let sizes = parts::Sizes::packed(1, 1, 2, 8);
    file.add(parts::ATTRIBUTES, &parts::attributes(sizes).encode());
    file.add(parts::EXPERIMENT, &parts::experiment(&loops).encode());
    for &n in frames {
        file.add(&parts::frame_name(n), &parts::frame(&[7, 8]));
    }
    folder.write("a.nd2", &file.finish());
    folder
}

/// The program, with 200 MB of addresses.
fn limited(folder: &Folder, words: &[&str]) -> Ran {
    Ran::new(folder.limited("-v 200000", words).output().unwrap())
}

/// So many frames, the files that say so, and two frames that they have.
fn cases() -> [(u64, Folder); 3] {
    let most = 1_000_000_000_000_000_000;
    [
        (2_000_000, looped([2000, 1000, 1], &[1, 1_999_999])),
        (1_000_000_000, looped([1000, 1000, 1000], &[1, 999_999_999])),
        (most, looped([1_000_000; 3], &[1, most - 1])),
    ]
}

#[test]
fn info_counts_frames_however_many_they_are() {
    for (frames, folder) in cases() {
        let absent = frames - 2;
        let told = limited(&folder, &["info", "a.nd2"]).fine();
        let line = format!("  frames      {frames}: 2 present, {absent} absent\n");
        assert!(told.contains(&line), "{told}");
        let line = format!("  planes      {}\n", 2 * u128::from(frames));
        assert!(told.contains(&line), "{told}");
        let json = limited(&folder, &["info", "--json", "a.nd2"]).fine();
        let json = parse(&json).expect("valid JSON");
        assert_eq!(json.get("present"), &Json::Number(2.0));
        assert_eq!(json.get("absent"), &Json::Number(absent as f64));
    }
}

#[test]
fn check_reads_the_frames_that_are_there() {
    for (frames, folder) in cases() {
        let ran = limited(&folder, &["check", "a.nd2"]);
        let more = format!("nd2: a.nd2: {} more frames absent\n", frames - 12);
        ran.fails(1, &["frame at scene 0, t 0, z 0: no frame", "(23)", &more]);
        let (all, absent) = (2 * frames, 2 * (frames - 2));
        let told = format!("a.nd2: of {all} planes 4 read, {absent} absent\n");
        assert_eq!(ran.out, told);
    }
}

/// The first lines are there at once, and nothing is said where nobody reads the rest.
#[test]
fn the_register_is_listed_as_it_is_read() {
    for (_, folder) in cases() {
        for words in [&["register", "a.nd2"][..], &["register", "--json", "a.nd2"]] {
            let mut command = folder.limited("-v 200000", words);
            command.stdout(Stdio::piped()).stderr(Stdio::piped());
            let mut child = command.spawn().unwrap();
            let out = BufReader::new(child.stdout.take().unwrap());
            let lines: Vec<String> = out.lines().take(1000).map(Result::unwrap).collect();
            assert!(lines[1].contains("absent") || lines[1].contains("null"));
            assert!(!lines[2].contains("absent") && !lines[2].contains("null"));
            assert!(lines[999].contains("998"));
            let ran = Ran::new(child.wait_with_output().unwrap());
            assert_eq!((ran.status, ran.err.as_str()), (0, ""));
        }
    }
}

/// A frame that is larger than the memory, all of it a hole.
#[test]
fn planes_that_are_too_large_are_refused() {
    let folder = Folder::new();
    let write = |name: &str, side: u64| {
        let mut out = File::create(folder.path().join(name)).unwrap();
        corner::hollow(parts::Sizes::packed(side, side, 1, 8), &mut out).unwrap();
    };
    write("a.nd2", 1 << 17);
    write("b.nd2", 1 << 15);
    let place = "plane at scene 0, t 0, c 0, z 0";
    let ceiling = format!("nd2: a.nd2: {place}: ceiling: ");
    for words in [&["check", "a.nd2"][..], &["plane", "a.nd2", "-o", "p.raw"]] {
        folder.run(words).fails(1, &[&ceiling, "(22)\n"]);
    }
    // 1 GB of samples, behind a mapping of as much, do not fit 1.5 GB of addresses
    for words in [&["check", "b.nd2"][..], &["plane", "b.nd2", "-o", "p.raw"]] {
        let ran = Ran::new(folder.limited("-v 1500000", words).output().unwrap());
        ran.fails(
            1,
            &[
                &format!("nd2: b.nd2: {place}: buffer: "),
                "(25); there is no memory for it\n",
            ],
        );
    }
    assert_eq!(folder.names(), ["a.nd2", "b.nd2"]);
}

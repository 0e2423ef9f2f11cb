//! What goes wrong: complaints, exit statuses, closed pipes.

mod common;

use common::{Folder, Ran};
use sample::misnamed::{leading, Kind};
use sample::roller;
use std::process::Stdio;

fn with_roller() -> Folder {
    let folder = Folder::new();
    folder.write("a.nd2", &roller(2, 3, 1, 2, 2));
    folder
}

#[test]
fn help_is_no_failure() {
    let folder = Folder::new();
    for words in [&["--help"][..], &["-h"], &["help"]] {
        assert!(folder.run(words).fine().starts_with("usage: nd2 COMMAND"));
    }
    for command in [
        "info", "plane", "sheet", "register", "tree", "check", "sample",
    ] {
        for words in [[command, "--help"], ["help", command], ["--help", command]] {
            let told = folder.run(&words).fine();
            let start = format!("usage: nd2 {command} ");
            assert!(told.starts_with(&start), "{words:?}: {told}");
        }
    }
    assert!(folder.run(&["--version"]).fine().starts_with("nd2 "));
    let none = folder.run(&["help", "look"]);
    none.fails(2, &["nd2: no such command: look\ntry: nd2 help\n"]);
    let two = folder.run(&["help", "info", "plane"]);
    two.fails(2, &["nd2: one word too many: plane\ntry: nd2 help\n"]);
}

#[test]
fn every_word_for_an_index_is_in_the_help() {
    let folder = Folder::new();
    let words = folder.run(&["help", "words"]).fine();
    let plane = folder.run(&["help", "plane"]).fine();
    for option in [
        "--scene",
        "--point",
        "--t",
        "--time",
        "--c",
        "--channel",
        "--lamp",
        "--z",
        "--focus",
    ] {
        let option = format!("{option} N");
        assert!(words.contains(&option), "{option}: {words}");
        assert!(plane.contains(&option), "{option}: {plane}");
    }
}

#[test]
fn wrong_usage_is_one_line_a_hint_and_status_2() {
    let folder = with_roller();
    let cases: &[(&[&str], &str)] = &[
        (&[], "no command"),
        (&["look"], "no such command: look"),
        (&["--look"], "no such option: --look"),
        (&[""], "no such command: ''"),
        (&["info"], "FILE is missing"),
        (&["info", "a.nd2", "b.nd2"], "one word too many: b.nd2"),
        (&["info", "--xml", "a.nd2"], "no such option: --xml"),
        (&["tree", "a.nd2"], "CHUNK is missing"),
        (&["check"], "FILE is missing"),
        (&["check", "--json", "a.nd2"], "no such option: --json"),
        (&["sample"], "OUT is missing"),
        (&["register"], "FILE is missing"),
        (&["sheet"], "FILE is missing"),
        (&["sheet", "--xml", "a.tif"], "no such option: --xml"),
        (&["plane", "a.nd2"], "-o is missing"),
        (&["plane", "a.nd2", "-o"], "-o needs a value"),
        (
            &["plane", "a.nd2", "-o", "p.png"],
            "p.png ends in none of .tif, .tiff, .pgm and .raw",
        ),
        (
            &["plane", "a.nd2", "-o", "p.pgm"],
            "--scene (the point) is missing: 0 to 1",
        ),
        (
            &["plane", "a.nd2", "--scene", "0", "-o", "p.pgm"],
            "--z (the focus step) is missing: 0 to 2",
        ),
        (
            &["plane", "a.nd2", "--z", "one", "-o", "p.pgm"],
            "--z needs a whole number, not one",
        ),
        (
            &["plane", "a.nd2", "--focus", "one", "-o", "p.pgm"],
            "--focus needs a whole number, not one",
        ),
        (
            &["plane", "a.nd2", "--z=1", "--z=2", "-o", "p.pgm"],
            "--z is there twice",
        ),
        (
            &["plane", "a.nd2", "--z=1", "--focus=1", "-o", "p.pgm"],
            "--z and --focus are one option",
        ),
    ];
    for (words, what) in cases {
        let unknown = ["look", "--look", ""];
        let known = words.first().filter(|word| !unknown.contains(word));
        let command = known.map_or(String::new(), |word| format!(" {word}"));
        let ran = folder.run(words);
        ran.fails(2, &[]);
        let told = format!("nd2: {what}\ntry: nd2 help{command}\n");
        assert_eq!((ran.err, ran.out), (told, String::new()));
    }
    assert!(!folder.has("p.pgm"));
}

#[test]
fn refusals_say_what_is_wrong_where_and_the_number() {
    let folder = with_roller();
    folder.write("empty.nd2", b"");
    folder.write("text.nd2", b"Dear diary, today I counted grit.");
    for command in [
        &["info", "text.nd2"][..],
        &["register", "text.nd2"],
        &["tree", "text.nd2", "x!"],
    ] {
        folder
            .run(command)
            .fails(1, &["nd2: text.nd2: foreign: not an ND2 file (1)"]);
    }
    folder
        .run(&["info", "empty.nd2"])
        .fails(1, &["nd2: empty.nd2: foreign", "(1)"]);
    folder
        .run(&["info", "gone.nd2"])
        .fails(1, &["nd2: gone.nd2: No such file"]);
    folder
        .run(&["info", "."])
        .fails(1, &["nd2: .: not a regular file"]);
    let tree = folder.run(&["tree", "a.nd2", "Gone"]);
    tree.fails(1, &["nd2: a.nd2: chunk Gone!: missing", "(11)"]);
    let words = ["plane", "a.nd2", "--scene", "2", "--z", "0", "-o", "p.pgm"];
    let place = "nd2: a.nd2: plane at scene 2, t 0, c 0, z 0: index";
    folder
        .run(&words)
        .fails(1, &[place, "(21); scene is 0 to 1\n"]);
    let words = "plane a.nd2 --point 0 --time 1 --lamp 1 --focus 3 -o p.pgm";
    let words: Vec<&str> = words.split(' ').collect();
    let over = "(21); t is 0, c is 0, z is 0 to 2\n";
    folder.run(&words).fails(1, &[over]);
    assert!(!folder.has("p.pgm"));
}

#[test]
fn what_is_no_sheet_is_told_with_what_is_wrong() {
    let folder = with_roller();
    let words = ["plane", "a.nd2", "--scene", "1", "--z", "0", "-o", "p.tif"];
    folder.run(&words).fine();
    let good = folder.read("p.tif");
    folder.write("empty.tif", b"");
    folder.write("cut.tif", &good[..good.len() - 3]);
    folder.write("bits.tif", &[&good[..42], &[12], &good[43..]].concat());
    let layout = "sheet layout: the sheet is not of this reader's layout (27); ";
    for (name, what) in [
        ("a.nd2", "it does not begin as a TIFF"),
        ("empty.tif", "it does not begin as a TIFF"),
        ("cut.tif", "it is 3 bytes shorter than its sizes say"),
        (
            "bits.tif",
            "258 BitsPerSample is 12, in a sheet 8, 16 or 32",
        ),
    ] {
        let complaint = format!("nd2: {name}: {layout}{what}\n");
        for words in [&["sheet", name][..], &["sheet", "--json", name]] {
            let ran = folder.run(words);
            ran.fails(1, &[&complaint]);
            assert_eq!(ran.out, "");
        }
    }
    let gone = folder.run(&["sheet", "gone.tif"]);
    gone.fails(1, &["nd2: gone.tif: No such file"]);
    folder
        .run(&["sheet", "."])
        .fails(1, &["nd2: .: not a regular file"]);
    let words = ["plane", "a.nd2", "--scene", "2", "--z", "0", "-o", "q.tif"];
    let parts = ["plane at scene 2, t 0, c 0, z 0: index", "(21)"];
    folder.run(&words).fails(1, &parts);
    assert!(!folder.has("q.tif"));
}

/// What is said of a chunk of another name, up to the map's entry.
const NAME: &str =
    "chunk name: a chunk does not bear the name that the map has for it (29); the map's entry ";

#[test]
fn a_frame_of_another_name_is_told_with_both_names() {
    let folder = Folder::new();
    folder.write("a.nd2", &leading(5, Kind::Neighbour));
    let what = "nd2: a.nd2: plane at scene 0, t 1, c 0, z 0: ";
    let what = format!("{what}{NAME}ImageDataSeq|1! leads to a chunk named ImageDataSeq|10!\n");
    for output in ["p.tif", "p.pgm", "p.raw"] {
        let ran = folder.run(&["plane", "a.nd2", "--t", "1", "-o", output]);
        ran.fails(1, &[&what]);
        assert!(!folder.has(output));
    }
    let ran = folder.run(&["check", "a.nd2"]);
    ran.fails(1, &[&what]);
    assert_eq!(ran.out, "a.nd2: of 11 planes 2 read, 1 refused, 8 absent\n");
    let words = ["plane", "a.nd2", "--t", "10", "-o", "p.raw"];
    folder.run(&words).fine();
}

#[test]
fn the_number_of_a_frame_is_told_by_its_loops() {
    let folder = Folder::new();
    let mut bytes = roller(2, 3, 1, 2, 2);
    let name = b"ImageDataSeq|4!";
    let chunk = bytes.windows(name.len()).position(|part| part == name);
    bytes[chunk.unwrap() + 13] = b'5';
    folder.write("a.nd2", &bytes);
    let what = "nd2: a.nd2: plane at scene 1, t 0, c 0, z 1: ";
    let what = format!("{what}{NAME}ImageDataSeq|4! leads to a chunk named ImageDataSeq|5!\n");
    let ran = folder.run(&["check", "a.nd2"]);
    ran.fails(1, &[&what]);
    assert_eq!(ran.out, "a.nd2: of 6 planes 5 read, 1 refused\n");
}

#[test]
fn a_tree_of_another_name_is_told_with_both_names() {
    let folder = Folder::new();
    for (i, name) in ["ImageAttributesLV!", "ImageMetadataLV!"]
        .iter()
        .enumerate()
    {
        folder.write("a.nd2", &leading(i, Kind::Unnamed));
        let what = format!("nd2: a.nd2: {NAME}{name} leads to a chunk without a name\n");
        for words in [
            &["info", "a.nd2"][..],
            &["register", "a.nd2"],
            &["check", "a.nd2"],
        ] {
            folder.run(words).fails(1, &[&what]);
        }
    }
    folder.write("a.nd2", &leading(2, Kind::Shorter));
    let leads = "ImageCalibrationLV|0! leads to a chunk named ImageCalibrationLV|0";
    let tree = folder.run(&["tree", "a.nd2", "ImageCalibrationLV|0"]);
    let what = format!("nd2: a.nd2: chunk ImageCalibrationLV|0!: {NAME}{leads}\n");
    tree.fails(1, &[&what]);
    let info = folder.run(&["info", "a.nd2"]).fine();
    let size = format!("  pixel size  not stated; the map's entry {leads}\n");
    assert!(info.contains(&size), "{info}");
    folder.write("a.nd2", &leading(3, Kind::Shorter));
    let info = folder.run(&["info", "a.nd2"]).fine();
    assert!(
        info.contains("  channel 0   no name, no colour\n"),
        "{info}"
    );
}

#[test]
fn check_tells_each_refusal_and_goes_on() {
    let folder = with_roller();
    let mut bytes = roller(2, 3, 1, 2, 2);
    let gone = b"ImageDataSeq|4!";
    let map = bytes
        .windows(gone.len())
        .rposition(|part| part == gone)
        .unwrap();
    bytes[map] = b'X';
    folder.write("b.nd2", &bytes);
    folder.write("text.nd2", b"no");
    let ran = folder.run(&["check", "b.nd2", "text.nd2", "a.nd2"]);
    let frame =
        "nd2: b.nd2: frame at scene 1, t 0, z 1: no frame: the map has no entry for the frame (23)";
    ran.fails(1, &[frame, "nd2: text.nd2: foreign"]);
    assert_eq!(
        ran.out,
        "b.nd2: of 6 planes 5 read, 1 absent\na.nd2: 6 planes read\n"
    );
}

/// With one stream for both, what is wrong stands before the total.
#[test]
fn check_tells_all_before_the_total() {
    let folder = Folder::new();
    let mut bytes = roller(1, 30, 1, 2, 2);
    for n in 0..15 {
        // frames 0 to 14 are absent, and of 15 to 29 the chunk has another name
        let (gone, misnamed) = (
            format!("ImageDataSeq|{n}!"),
            format!("ImageDataSeq|{}!", n + 15),
        );
        let part = |bytes: &[u8], name: &str, last: bool| {
            let is = |part: &[u8]| part == name.as_bytes();
            let mut windows = bytes.windows(name.len());
            if last {
                windows.rposition(is)
            } else {
                windows.position(is)
            }
            .unwrap()
        };
        let at = part(&bytes, &gone, true);
        bytes[at] = b'X';
        let at = part(&bytes, &misnamed, false);
        bytes[at] = b'X';
    }
    folder.write("a.nd2", &bytes);
    let words = ["-c", "\"$0\" check a.nd2 2>&1", env!("CARGO_BIN_EXE_nd2")];
    let ran = std::process::Command::new("sh")
        .args(words)
        .current_dir(folder.path())
        .output();
    let ran = Ran::new(ran.unwrap());
    let lines: Vec<&str> = ran.out.lines().collect();
    assert_eq!((ran.status, lines.len()), (1, 23), "{}", ran.out);
    assert!(lines[..10].iter().all(|line| line.ends_with("(23)")));
    assert_eq!(lines[10], "nd2: a.nd2: 5 more frames absent");
    assert!(lines[11..21].iter().all(|line| line.contains("(29)")));
    assert_eq!(lines[21], "nd2: a.nd2: 5 more planes refused");
    assert_eq!(
        lines[22],
        "a.nd2: of 30 planes 0 read, 15 refused, 15 absent"
    );
}

/// Of 1200 frames each leads to a chunk of another name.
#[test]
fn check_goes_on_after_1000_refusals() {
    use sample::{parts, Nd2};
    let folder = Folder::new();
    let mut file = Nd2::new();
    let sizes = parts::Sizes::packed(1, 1, 1, 8);
    file.add(parts::ATTRIBUTES, &parts::attributes(sizes).encode());
    let loops = [(parts::TIME, parts::counted(1201))];
    file.add(parts::EXPERIMENT, &parts::experiment(&loops).encode());
    for n in 0..1200 {
        file.entries.push(sample::file::MapEntry {
            name: parts::frame_name(n).into_bytes(),
            offset: 0,
            size: 0,
        });
    }
    folder.write("a.nd2", &file.finish());
    folder.write("b.nd2", &roller(1, 1, 1, 2, 2));
    let ran = folder.run(&["check", "a.nd2", "b.nd2"]);
    ran.fails(1, &["(29)", "nd2: a.nd2: 990 more planes refused\n"]);
    assert_eq!(
        ran.out,
        "a.nd2: of 1201 planes 0 read, 1000 refused, 1 absent, the others were not tried\nb.nd2: 1 plane read\n"
    );
}

#[test]
fn a_closed_pipe_is_no_failure() {
    let folder = Folder::new();
    folder.write("a.nd2", &roller(2000, 1, 1, 1, 1));
    for words in [
        &["register", "a.nd2"][..],
        &["register", "--json", "a.nd2"],
        &["tree", "a.nd2", "ImageMetadataLV!"],
    ] {
        let mut command = folder.command(words);
        let mut child = command
            .stdout(Stdio::piped())
            .stderr(Stdio::piped())
            .spawn()
            .unwrap();
        drop(child.stdout.take());
        let ran = Ran::new(child.wait_with_output().unwrap());
        assert_eq!((ran.status, ran.err.as_str()), (0, ""));
    }
}

#[test]
fn words_after_two_dashes_are_files() {
    let folder = Folder::new();
    folder.write("--json", &roller(1, 1, 1, 2, 2));
    assert!(folder
        .run(&["info", "--", "--json"])
        .fine()
        .starts_with("--json\n"));
}

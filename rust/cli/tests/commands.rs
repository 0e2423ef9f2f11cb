//! Each command on files that can be read.

mod common;

use common::json::{parse, Json};
use common::Folder;
use sample::parts::Plane;
use sample::roller::sample;
use sample::{parts, pixel, tree, Nd2, Roller};

fn small() -> Roller {
    Roller {
        padding: 6,
        ..Roller::new(3, 2, 2, 5, 4)
    }
}

fn with_small() -> Folder {
    let folder = Folder::new();
    folder.write("a.nd2", &small().file());
    folder
}

/// A file of one frame of 2 x 1 samples, which holds these bytes.
fn one_frame(bits: u64, rows: &[u8]) -> Vec<u8> {
    let mut file = Nd2::new();
    let sizes = parts::Sizes::packed(2, 1, 1, bits);
    file.add(parts::ATTRIBUTES, &parts::attributes(sizes).encode());
    file.add(parts::EXPERIMENT, &parts::experiment(&[]).encode());
    file.add(&parts::frame_name(0), &parts::frame(rows));
    file.finish()
}

#[test]
fn info_tells_sizes_loops_and_channels() {
    let told = with_small().run(&["info", "a.nd2"]).fine();
    for part in [
        "5 x 4 samples of 16 bits",
        "3 points, then 2 focus steps",
        "pixel size  0.325 x 0.325 micrometres (325000 picometres)\n",
        "0.5 micrometres",
        "lamp 0, #ff0000",
        "lamp 1, #00ff00",
        "6: 6 present, 0 absent",
        "planes      12",
    ] {
        assert!(told.contains(part), "{part:?} is not in {told:?}");
    }
}

#[test]
fn info_as_json_is_json_and_tells_the_same() {
    let told = with_small().run(&["info", "--json", "a.nd2"]).fine();
    let json = parse(&told).expect("valid JSON");
    assert_eq!(json.get("file"), &Json::Text("a.nd2".into()));
    assert_eq!(json.get("width"), &Json::Number(5.0));
    assert_eq!(json.get("row_bytes"), &Json::Number(26.0));
    assert_eq!(
        json.get("loops").items()[0].get("axis"),
        &Json::Text("P".into())
    );
    assert_eq!(
        json.get("loops").items()[1].get("count"),
        &Json::Number(2.0)
    );
    assert_eq!(json.get("pixel_size").items()[0], Json::Number(0.325));
    assert_eq!(json.get("picometres"), &Json::Number(325_000.0));
    assert_eq!(
        json.get("channels").items()[1].get("name"),
        &Json::Text("lamp 1".into())
    );
    let color = [0.0, 255.0, 0.0].map(Json::Number);
    assert_eq!(json.get("channels").items()[1].get("color").items(), color);
    assert_eq!(json.get("absent"), &Json::Number(0.0));
    assert_eq!(json.get("z_step"), &Json::Number(0.5));
    assert_eq!(json.get("z_step_state"), &Json::Text("stated".into()));
    assert_eq!(json.get("file_bytes"), &Json::Null);
}

/// The kinds of focus step, in text and in JSON.
#[test]
fn info_tells_the_kinds_of_focus_step_apart() {
    let folder = Folder::new();
    for (step, state, line) in [
        (0.5, "stated", "0.5 micrometres"),
        (1e-7, "smaller", "below 0.000001 micrometres, not used"),
        (2000.0, "larger", "above 1000 micrometres, not used"),
        (f64::NAN, "unstated", "not stated"),
    ] {
        let r = Roller { step, ..small() };
        folder.write("a.nd2", &r.file());
        let told = folder.run(&["info", "a.nd2"]).fine();
        let line = format!("  focus step  {line}\n");
        assert!(told.contains(&line), "{line:?} is not in {told:?}");
        let json = parse(&folder.run(&["info", "--json", "a.nd2"]).fine()).expect("valid JSON");
        assert_eq!(json.get("z_step_state"), &Json::Text(state.into()));
        assert_eq!(json.get("z_step") == &Json::Null, state != "stated");
    }
}

/// A path that is no UTF-8 is shown with the bytes that are none written out, and its bytes stand in the JSON.
#[test]
fn paths_are_shown_without_loss() {
    use std::ffi::OsStr;
    use std::os::unix::ffi::OsStrExt;
    let folder = with_small();
    let path = OsStr::from_bytes(b"\xFF\\\x1B.nd2");
    std::fs::rename(folder.path().join("a.nd2"), folder.path().join(path)).unwrap();
    let run = |words: &[&str]| {
        let mut command = folder.command(words);
        common::Ran::new(command.arg(path).output().unwrap())
    };
    let shown = "\\xff\\\\\\u{1b}.nd2";
    let told = run(&["info"]).fine();
    assert!(told.starts_with(&format!("{shown}\n")), "{told}");
    let json = parse(&run(&["info", "--json"]).fine()).expect("valid JSON");
    assert_eq!(json.get("file"), &Json::Text(shown.into()));
    assert_eq!(json.get("file_bytes"), &Json::Text("ff5c1b2e6e6432".into()));
    assert_eq!(run(&["check"]).fine(), format!("{shown}: 12 planes read\n"));
    let refused = run(&["sheet"]);
    refused.fails(1, &[&format!("nd2: {shown}: sheet layout: ")]);
}

#[test]
fn an_index_has_several_words() {
    let folder = with_small();
    let words = "plane a.nd2 --scene 2 --t 0 --c 1 --z 1 -o p.raw";
    folder.run(&words.split(' ').collect::<Vec<_>>()).fine();
    for words in [
        "plane a.nd2 --point 2 --time 0 --channel 1 --focus 1 --force -o q.raw",
        "plane a.nd2 --point=2 --time=0 --lamp=1 --focus=1 --force -o q.raw",
    ] {
        folder.run(&words.split(' ').collect::<Vec<_>>()).fine();
        assert_eq!(folder.read("q.raw"), folder.read("p.raw"));
        std::fs::remove_file(folder.path().join("q.raw")).unwrap();
    }
}

#[test]
fn json_is_valid_whatever_names_and_sizes_are() {
    let folder = Folder::new();
    let mut file = Nd2::new();
    let sizes = parts::Sizes::packed(1, 1, 3, 8);
    file.add(parts::ATTRIBUTES, &parts::attributes(sizes).encode());
    file.add(parts::EXPERIMENT, &parts::experiment(&[]).encode());
    file.add(
        parts::CALIBRATION,
        &parts::calibration(f64::INFINITY).encode(),
    );
    let name = "\"quoted\" \\ \u{1}\u{7f}\u{9b}\n ü \u{1F600}";
    let planes = [Plane::new(name, 1), Plane::new("", 2)];
    file.add(parts::CHANNELS, &parts::channels(&planes).encode());
    folder.write("a\"b\\.nd2", &file.finish());
    let told = folder.run(&["info", "--json", "a\"b\\.nd2"]).fine();
    let control = |letter: char| letter.is_control() && letter != '\n';
    assert!(!told.contains(control), "{told:?}");
    let json = parse(&told).expect("valid JSON");
    assert_eq!(json.get("file"), &Json::Text("a\"b\\.nd2".into()));
    assert_eq!(json.get("pixel_size").items(), [Json::Null, Json::Null]);
    assert_eq!(json.get("picometres"), &Json::Null);
    let channels = json.get("channels").items();
    assert_eq!(channels[0].get("name"), &Json::Text(name.into()));
    assert_eq!(channels[1].get("name"), &Json::Null);
    assert_eq!(channels[2].get("color"), &Json::Null);
    assert_eq!(json.get("absent"), &Json::Number(1.0));
}

/// What info says of the pixel size of a file with this calibration, and its picometres in JSON.
fn pixel_size(calibration: &tree::Record) -> (String, String) {
    let folder = Folder::new();
    folder.write("a.nd2", &pixel::calibrated(calibration));
    let told = folder.run(&["info", "a.nd2"]).fine();
    let json = folder.run(&["info", "--json", "a.nd2"]).fine();
    assert!(parse(&json).is_some(), "{json}");
    let after = |text: &str, start: &str, end: char| {
        let rest = text.split_once(start).map(|(_, rest)| rest);
        rest.and_then(|rest| rest.split(end).next())
            .map(str::to_string)
    };
    let line = after(&told, "pixel size  ", '\n');
    let number = after(&json, "\"picometres\": ", ',');
    (line.unwrap(), number.unwrap())
}

#[test]
fn info_tells_picometres() {
    let limit = f64::from_bits(pixel::LIMIT);
    let above = f64::from_bits(pixel::LIMIT + 1);
    let over = "over 18446744073709551615 picometres";
    for (size, micrometres, picometres, json) in [
        (0.1625, "0.1625", "162500 picometres", "162500"),
        (0.0078125, "0.0078125", "7812 picometres", "7812"),
        (1e-7, "0.0000001", "0 picometres", "0"),
        (
            limit,
            "18446744000000",
            "18446744073709550781 picometres",
            "18446744073709550781",
        ),
        (above, "18446744000000", over, "null"),
        (f64::INFINITY, "inf", over, "null"),
    ] {
        let (line, number) = pixel_size(&parts::calibration(size));
        let expected = format!("{micrometres} x {micrometres} micrometres ({picometres})");
        assert_eq!((line, number.as_str()), (expected, json));
    }
}

#[test]
fn info_tells_where_no_size_is() {
    let none = |calibration: tree::Record, expected: &str| {
        let (line, number) = pixel_size(&calibration);
        assert_eq!((line.as_str(), number.as_str()), (expected, "null"));
    };
    for size in [0.0, -0.325, f64::NAN] {
        none(parts::calibration(size), "not stated");
    }
    none(tree::level("SLxCalibration", Vec::new()), "not stated");
    none(tree::packed(&[0; 12]), "in a packed tree, not read");
}

#[test]
fn every_random_file_gives_json_or_a_refusal() {
    let folder = Folder::new();
    for seed in 0..60 {
        folder.write("r.nd2", &sample::random::file(seed));
        let ran = folder.run(&["info", "--json", "r.nd2"]);
        match ran.status {
            0 => assert!(parse(&ran.out).is_some(), "seed {seed}: {}", ran.out),
            _ => ran.fails(1, &["nd2: r.nd2: ", "("]),
        }
    }
}

#[test]
fn a_plane_of_16_bits_is_a_big_endian_pgm() {
    let folder = with_small();
    let words = [
        "plane", "a.nd2", "--scene", "2", "--t", "0", "--c", "1", "--z=1", "-o", "p.pgm",
    ];
    assert_eq!(folder.run(&words).fine(), "");
    let mut expected = b"P5\n5 4\n65535\n".to_vec();
    for (x, y) in (0..4).flat_map(|y| (0..5).map(move |x| (x, y))) {
        expected.extend_from_slice(&sample(2, 1, 1, x, y).to_be_bytes());
    }
    assert_eq!(folder.read("p.pgm"), expected);
}

#[test]
fn a_raw_plane_has_the_bytes_of_the_file() {
    let folder = with_small();
    let words = [
        "plane", "-o", "p.raw", "--scene", "1", "--c", "0", "--z", "1", "a.nd2",
    ];
    folder.run(&words).fine();
    let places = (0..4).flat_map(|y| (0..5).map(move |x| (x, y)));
    let samples = places.map(|(x, y)| sample(1, 1, 0, x, y));
    let expected: Vec<u8> = samples.flat_map(|s| s.to_le_bytes()).collect();
    assert_eq!(folder.read("p.raw"), expected);
}

#[test]
fn planes_of_8_and_32_bits() {
    let folder = Folder::new();
    folder.write("8.nd2", &one_frame(8, &[7, 250]));
    folder.run(&["plane", "8.nd2", "-o", "8.pgm"]).fine();
    assert_eq!(folder.read("8.pgm"), b"P5\n2 1\n255\n\x07\xFA");
    let rows = [1, 2, 3, 4, 5, 6, 7, 8];
    folder.write("32.nd2", &one_frame(32, &rows));
    folder.run(&["plane", "32.nd2", "-o", "32.raw"]).fine();
    assert_eq!(folder.read("32.raw"), rows);
    let refused = folder.run(&["plane", "32.nd2", "-o", "32.pgm"]);
    refused.fails(1, &["32.nd2", "32 bits", ".tif", ".raw"]);
    assert!(!folder.has("32.pgm"));
}

#[test]
fn a_plane_as_a_sheet_is_read_back() {
    let folder = with_small();
    let words = "plane a.nd2 --scene 2 --c 1 --z 1 -o".split(' ');
    let file = small().file();
    let expected = nd2::Reader::open(&file).unwrap().sheet(2, 0, 1, 1).unwrap();
    for name in ["p.tif", "p.tiff", "p.TIF"] {
        let words: Vec<&str> = words.clone().chain([name]).collect();
        assert_eq!(folder.run(&words).fine(), "");
        assert!(folder.read(name) == expected, "{name}");
    }
    let places = (0..4).flat_map(|y| (0..5).map(move |x| (x, y)));
    let samples = places.map(|(x, y)| sample(2, 1, 1, x, y));
    let (smallest, largest) = (samples.clone().min(), samples.max());
    let (smallest, largest) = (smallest.unwrap(), largest.unwrap());
    let told = folder.run(&["sheet", "p.tif"]).fine();
    assert_eq!(
        told,
        format!(
            "p.tif\n  bytes       226\n  plane       5 x 4 samples of 16 bits\n  smallest    {smallest}\n  largest     {largest}\n"
        )
    );
    let json = parse(&folder.run(&["sheet", "--json", "p.tif"]).fine()).expect("valid JSON");
    assert_eq!(json.get("file"), &Json::Text("p.tif".into()));
    for (name, number) in [
        ("bytes", 226),
        ("width", 5),
        ("height", 4),
        ("bits", 16),
        ("smallest", smallest),
        ("largest", largest),
    ] {
        assert_eq!(json.get(name), &Json::Number(number.into()), "{name}");
    }
}

#[test]
fn sheets_of_8_and_32_bits() {
    let folder = Folder::new();
    folder.write("8.nd2", &one_frame(8, &[7, 250]));
    folder.run(&["plane", "8.nd2", "-o", "8.tif"]).fine();
    assert_eq!(folder.read("8.tif")[186..], [7, 250]);
    let told = folder.run(&["sheet", "8.tif"]).fine();
    assert!(
        told.contains("smallest    7\n  largest     250\n"),
        "{told}"
    );
    let floats = |name: &str, samples: [f32; 2]| {
        let rows = samples.map(f32::to_le_bytes).concat();
        folder.write("32.nd2", &one_frame(32, &rows));
        folder.run(&["plane", "32.nd2", "-o", name]).fine();
        assert_eq!(folder.read(name)[186..], rows);
        let json = folder.run(&["sheet", "--json", name]).fine();
        let json = parse(&json).expect("valid JSON");
        let ends = ["smallest", "largest"].map(|end| json.get(end).clone());
        (folder.run(&["sheet", name]).fine(), ends)
    };
    let (told, ends) = floats("a.tif", [0.5, -2.25]);
    assert!(told.contains("2 x 1 samples of 32 bits"), "{told}");
    assert!(
        told.contains("smallest    -2.25\n  largest     0.5\n"),
        "{told}"
    );
    assert_eq!(ends, [-2.25, 0.5].map(Json::Number));
    let (told, ends) = floats("b.tif", [f32::NAN, f32::INFINITY]);
    assert!(
        told.contains("smallest    inf\n  largest     inf\n"),
        "{told}"
    );
    assert_eq!(ends, [Json::Null, Json::Null]);
    let (told, _) = floats("c.tif", [f32::NAN; 2]);
    assert!(told.contains("largest     no number\n"), "{told}");
}

#[test]
fn the_register_has_a_line_for_each_frame() {
    let folder = Folder::new();
    let r = Roller {
        focus_outside: true,
        ..small()
    };
    let mut bytes = r.file();
    let gone = b"ImageDataSeq|3!";
    let map = bytes
        .windows(gone.len())
        .rposition(|part| part == gone)
        .unwrap();
    bytes[map] = b'X';
    folder.write("a.nd2", &bytes);
    let told = folder.run(&["register", "a.nd2"]).fine();
    let rows: Vec<Vec<&str>> = told
        .lines()
        .map(|l| l.split_whitespace().collect())
        .collect();
    assert_eq!(rows[0], ["frame", "scene", "t", "z", "offset"]);
    assert_eq!(rows.len(), 7);
    assert_eq!(rows[4], ["3", "0", "0", "1", "absent"]);
    assert_eq!(rows[6][..4], ["5", "2", "0", "1"]);
    let json = parse(&folder.run(&["register", "--json", "a.nd2"]).fine()).expect("valid JSON");
    assert_eq!(json.items().len(), 6);
    assert_eq!(json.items()[3].get("offset"), &Json::Null);
    assert_eq!(json.items()[5].get("scene"), &Json::Number(2.0));
    let info = folder.run(&["info", "a.nd2"]).fine();
    assert!(info.contains("6: 5 present, 1 absent"), "{info}");
}

#[test]
fn a_tree_is_indented_with_names_and_values() {
    let folder = Folder::new();
    let mut file = Nd2::new();
    file.add(
        parts::ATTRIBUTES,
        &parts::attributes(parts::Sizes::packed(1, 1, 1, 8)).encode(),
    );
    file.add(parts::EXPERIMENT, &parts::experiment(&[]).encode());
    let records = vec![
        tree::flag("yes", 1),
        tree::i32("below", -3),
        tree::u64("large", u64::MAX),
        tree::f64("half", 0.5),
        tree::text("said", "a\u{1b}b"),
        tree::level("inner", vec![tree::u32("", 9)]),
    ];
    file.add("Spare!", &tree::level("outer", records).encode());
    folder.write("a.nd2", &file.finish());
    let expected = "\
outer
  yes: flag = true
  below: i32 = -3
  large: u64 = 18446744073709551615
  half: f64 = 0.5
  said: text = \"a\\u{1b}b\"
  inner
    -: u32 = 9
";
    assert_eq!(folder.run(&["tree", "a.nd2", "Spare!"]).fine(), expected);
    assert_eq!(folder.run(&["tree", "a.nd2", "Spare"]).fine(), expected);
}

#[test]
fn check_reads_every_plane_and_shows_no_progress_off_a_terminal() {
    let folder = with_small();
    let told = folder.run(&["check", "a.nd2", "a.nd2"]).fine();
    assert_eq!(told, "a.nd2: 12 planes read\na.nd2: 12 planes read\n");
}

#[test]
fn the_sample_is_a_whole_roller() {
    let folder = Folder::new();
    let told = folder.run(&["sample", "s.nd2"]).fine();
    assert_eq!(told, "s.nd2: 528 planes of 64 x 64 samples\n");
    assert_eq!(
        folder.run(&["check", "s.nd2"]).fine(),
        "s.nd2: 528 planes read\n"
    );
    let info = folder.run(&["info", "s.nd2"]).fine();
    assert!(info.contains("24 points, then 11 focus steps"), "{info}");
    assert!(info.contains("(325000 picometres)"), "{info}");
}

#[test]
fn the_sample_of_a_colour_camera_has_one_record_for_its_components() {
    let folder = Folder::new();
    let told = folder.run(&["sample", "--colour", "s.nd2"]).fine();
    assert_eq!(told, "s.nd2: 792 planes of 64 x 64 samples\n");
    let checked = folder.run(&["check", "s.nd2"]).fine();
    assert_eq!(checked, "s.nd2: 792 planes read\n");
    let tree = folder
        .run(&["tree", "s.nd2", "ImageMetadataSeqLV|0"])
        .fine();
    assert_eq!(tree.matches("sDescription").count(), 1, "{tree}");
    assert!(tree.contains("uiCompCount: u64 = 3"), "{tree}");
    let info = folder.run(&["info", "s.nd2"]).fine();
    for line in [0, 1, 2].map(|i| format!("  channel {i}   colour camera, #ffffff\n")) {
        assert!(info.contains(&line), "{line:?} is not in {info:?}");
    }
    let json = parse(&folder.run(&["info", "--json", "s.nd2"]).fine()).expect("valid JSON");
    let channels = json.get("channels").items();
    assert_eq!(channels.len(), 3);
    let name = Json::Text("colour camera".into());
    assert!(channels.iter().all(|c| c.get("name") == &name));
}

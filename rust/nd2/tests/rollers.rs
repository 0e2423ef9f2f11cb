//! Files of whole rollers, read back.

use nd2::{Axis, Channel, Reader, Refusal, State, Value, ZStep};
use sample::parts::{self, Plane, Sizes};
use sample::roller::sample;
use sample::{roller, Nd2, Roller};

fn small() -> Roller {
    Roller {
        padding: 6,
        focus_outside: true,
        ..Roller::new(3, 2, 2, 5, 4)
    }
}

fn expected(r: &Roller, point: u32, step: u32, lamp: u32) -> Vec<u8> {
    let places = (0..r.height).flat_map(|y| (0..r.width).map(move |x| (x, y)));
    let samples = places.map(|(x, y)| sample(point, step, lamp, x, y));
    samples.flat_map(|s| s.to_le_bytes()).collect()
}

#[test]
fn the_summary_says_what_was_written() {
    let bytes = small().file();
    let reader = Reader::open(&bytes).unwrap();
    let summary = reader.summary();
    let loops: Vec<(Axis, u64)> = summary.loops.iter().map(|l| (l.axis, l.count)).collect();
    assert_eq!(loops, [(Axis::Z, 2), (Axis::P, 3)]);
    assert_eq!(
        (summary.width, summary.height, summary.row_bytes),
        (5, 4, 26)
    );
    assert_eq!((summary.components, summary.bits), (2, 16));
    assert_eq!((summary.frames(), summary.planes()), (6, 12));
    assert_eq!(summary.plane_bytes(), 40);
    assert_eq!(
        (summary.state, summary.pixel_size),
        (State::Stated, Some((0.325, 0.325)))
    );
    assert_eq!(summary.z_step, ZStep::Stated(0.5));
    assert_eq!(reader.picometres(), Ok(325_000));
}

#[test]
fn every_plane_is_the_one_that_was_written() {
    for focus_outside in [false, true] {
        let r = Roller {
            focus_outside,
            ..small()
        };
        let bytes = r.file();
        let reader = Reader::open(&bytes).unwrap();
        for (point, step, lamp) in places(&r) {
            let plane = reader.plane(point.into(), 0, lamp.into(), step.into());
            assert_eq!(plane, Ok(expected(&r, point, step, lamp)));
        }
    }
}

fn places(r: &Roller) -> impl Iterator<Item = (u32, u32, u32)> {
    let (points, steps, lamps) = (r.points, r.steps, r.lamps);
    (0..points * steps * lamps).map(move |i| (i / lamps / steps, i / lamps % steps, i % lamps))
}

#[test]
fn a_plane_into_a_buffer_leaves_what_is_behind_it() {
    let r = small();
    let bytes = r.file();
    let reader = Reader::open(&bytes).unwrap();
    let mut buffer = [7; 50];
    reader.plane_into(1, 0, 1, 0, &mut buffer).unwrap();
    assert_eq!(buffer[..40], expected(&r, 1, 0, 1));
    assert_eq!(buffer[40..], [7; 10]);
    let refused = reader.plane_into(1, 0, 1, 0, &mut buffer[..39]);
    assert_eq!(refused, Err(Refusal::BUFFER));
}

#[test]
fn indices_that_are_too_large_are_refused() {
    let bytes = small().file();
    let reader = Reader::open(&bytes).unwrap();
    for (scene, t, c, z) in [
        (3, 0, 0, 0),
        (0, 1, 0, 0),
        (0, 0, 2, 0),
        (0, 0, 0, 2),
        (u64::MAX, 0, 0, 0),
    ] {
        assert_eq!(reader.plane(scene, t, c, z), Err(Refusal::INDEX));
    }
}

fn channel(name: &str, red: u8, green: u8, blue: u8) -> Channel {
    Channel {
        name: Some(name.to_string()),
        color: Some((red, green, blue)),
    }
}

fn channels(bytes: &[u8]) -> Vec<Channel> {
    Reader::open(bytes).unwrap().channels().unwrap()
}

#[test]
fn channels_have_names_and_colours() {
    let lamps = [channel("lamp 0", 255, 0, 0), channel("lamp 1", 0, 255, 0)];
    assert_eq!(channels(&small().file()), lamps);
}

#[test]
fn one_record_of_a_colour_camera_is_for_all_components() {
    let r = Roller {
        lamps: 3,
        one_record: true,
        ..small()
    };
    let bytes = r.file();
    let camera = || channel("colour camera", 255, 255, 255);
    assert_eq!(channels(&bytes), [camera(), camera(), camera()]);
    let reader = Reader::open(&bytes).unwrap();
    for lamp in 0..r.lamps {
        let plane = reader.plane(2, 0, lamp.into(), 1);
        assert_eq!(plane, Ok(expected(&r, 2, 1, lamp)));
    }
}

/// The channels of a file of so many components and these plane records.
fn covered(components: u64, planes: &[Plane]) -> Vec<Channel> {
    let mut file = Nd2::new();
    let sizes = Sizes::packed(1, 1, components, 8);
    file.add(parts::ATTRIBUTES, &parts::attributes(sizes).encode());
    file.add(parts::EXPERIMENT, &parts::experiment(&[]).encode());
    file.add(parts::CHANNELS, &parts::channels(planes).encode());
    channels(&file.finish())
}

#[test]
fn plane_records_cover_components_in_turn() {
    let colour = Plane::new("colour", 1);
    let grey = Plane::new("grey", 0x0003_0200);
    let told = || channel("colour", 1, 0, 0);
    let then = || channel("grey", 0, 2, 3);
    let planes = [colour.covering(2), grey.covering(1)];
    assert_eq!(covered(3, &planes), [told(), told(), then()]);
    let empty = Channel::default();
    assert_eq!(covered(4, &planes), [told(), told(), then(), empty]);
    assert_eq!(covered(2, &planes), [told(), told()]);
    let most = [colour.covering(u64::MAX), grey.covering(u64::MAX)];
    assert_eq!(covered(3, &most), [told(), told(), told()]);
    let none = [colour.covering(0), grey];
    assert_eq!(covered(2, &none), [told(), then()]);
}

#[test]
fn the_register_has_every_frame_in_order() {
    let bytes = small().file();
    let register = Reader::open(&bytes).unwrap().register().unwrap();
    let frames: Vec<_> = register.iter().collect();
    let places: Vec<(u32, u32)> = frames.iter().map(|f| (f.z, f.scene)).collect();
    assert_eq!(places, [(0, 0), (0, 1), (0, 2), (1, 0), (1, 1), (1, 2)]);
    assert!(frames.iter().all(|f| f.is_present() && f.t == 0));
    let offsets: Vec<Option<u64>> = frames.iter().map(|f| f.offset).collect();
    assert!(offsets.windows(2).all(|two| two[0] < two[1]));
    let numbers: Vec<u64> = register.iter_present().map(|f| f.number).collect();
    assert_eq!(numbers, [0, 1, 2, 3, 4, 5]);
}

#[test]
fn a_tree_has_names_values_and_levels() {
    let bytes = small().file();
    let reader = Reader::open(&bytes).unwrap();
    let tree = reader.tree("ImageMetadataLV!").unwrap();
    let kind = tree.find(&["SLxExperiment", "eType"]).unwrap();
    assert_eq!(
        (kind.value(), kind.depth(), kind.kind()),
        (Value::U32(4), 1, 3)
    );
    let step = tree
        .find(&["SLxExperiment", "uLoopPars", "dZStep"])
        .unwrap();
    assert_eq!(step.value(), Value::F64(0.5));
    let root = tree.entry(0).unwrap();
    let names: Vec<String> = root.children().map(|entry| entry.name()).collect();
    assert_eq!(names, ["eType", "uLoopPars", "ppNextLevelEx"]);
    assert_eq!(
        (root.value(), root.parent().is_none()),
        (Value::Level, true)
    );
    assert!(tree.find(&["SLxExperiment", "absent"]).is_none());
    assert!(tree.find(&[]).is_none());
    assert_eq!(tree.entries().count(), tree.len());
    assert_eq!(
        reader.tree("absent!").map(|tree| tree.len()),
        Err(Refusal::MISSING)
    );
}

#[test]
fn a_tree_of_more_entries_than_the_first_table_is_read() {
    let bytes = roller(400, 1, 1, 1, 1);
    let reader = Reader::open(&bytes).unwrap();
    assert_eq!(reader.summary().scenes(), 400);
    let tree = reader.tree("ImageMetadataLV!").unwrap();
    let points = tree
        .find(&["SLxExperiment", "uLoopPars", "Points"])
        .unwrap();
    assert_eq!(points.children().count(), 400);
    let last = points.children().last().unwrap();
    assert_eq!(last.child("dPosX").unwrap().value(), Value::F64(399.0));
}

#[test]
fn readers_are_used_from_several_threads() {
    let r = small();
    let bytes = r.file();
    let reader = Reader::open(&bytes).unwrap();
    std::thread::scope(|scope| {
        for point in 0..r.points {
            let reader = &reader;
            scope.spawn(move || {
                assert_eq!(
                    reader.plane(point.into(), 0, 1, 1),
                    Ok(expected(&r, point, 1, 1))
                );
            });
        }
    });
}

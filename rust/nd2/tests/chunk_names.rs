//! Chunks that bear another name than the map's for them: 29, and the calls that take them as not there.

use nd2::{raw, Reader, Refusal, State};
use sample::misnamed::{self, leading, Kind, CHUNKS, KINDS};
use sample::parts::{ATTRIBUTES, CALIBRATION, CHANNELS, EXPERIMENT};

fn number<T>(answer: Result<T, Refusal>) -> u32 {
    answer.err().map_or(0, Refusal::number)
}

fn border(file: &[u8], t: u64) -> u32 {
    let mut samples = [0xA5; 2];
    let number = raw::read_plane(file, &mut [0; 48 * 20], [0, t, 0, 0], &mut samples);
    assert!(number == 0 || samples == [0xA5; 2]);
    number
}

/// The numbers of a file that opens, with what the rule gives for one chunk of it: the others are in order.
fn asked(reader: &Reader, chunk: &str, rule: u32) {
    let of = |is: &str| if chunk == is { rule } else { 0 };
    let at = |t| number(reader.plane(0, t, 0, 0));
    assert_eq!((at(0), at(1), at(10)), (0, of("frame"), 0));
    assert_eq!(number(reader.sheet(0, 1, 0, 0)), of("frame"));
    assert_eq!(number(reader.tree(ATTRIBUTES)), of("attributes"));
    assert_eq!(number(reader.tree(EXPERIMENT)), of("experiment"));
    assert_eq!(number(reader.tree(CALIBRATION)), of("calibration"));
    assert_eq!(number(reader.tree(CHANNELS)), of("channels"));
    assert_eq!(number(reader.picometres()), of("calibration"));
    let stated = reader.summary().state == State::Stated;
    assert_eq!(stated, of("calibration") == 0);
    assert_eq!(reader.summary().pixel_size.is_some(), stated);
    let channels = reader.channels().unwrap();
    assert_eq!(channels[0].name.is_some(), of("channels") == 0);
    assert_eq!(channels[0].color.is_some(), of("channels") == 0);
    assert_eq!(reader.register().unwrap().len(), 11);
}

#[test]
fn each_chunk_in_each_way() {
    for (chunk, i) in CHUNKS {
        for (label, kind) in KINDS {
            println!("{chunk}: {label}");
            let file = leading(i, kind);
            let rule = kind.number();
            let needed = ["attributes", "experiment"].contains(&chunk);
            let opened = Reader::open(&file);
            assert_eq!(opened.is_ok(), !needed || rule == 0);
            match opened {
                Ok(reader) => asked(&reader, chunk, rule),
                Err(refusal) => assert_eq!(refusal.number(), rule),
            }
            let of_frame = if chunk == "frame" { rule } else { 0 };
            let opening = if needed { rule } else { 0 };
            assert_eq!(border(&file, 0), opening);
            assert_eq!(border(&file, 1), opening.max(of_frame));
        }
    }
}

#[test]
fn a_packed_calibration_of_another_name_is_none() {
    let state = |kind| {
        let file = misnamed::packed_calibration(kind);
        let reader = Reader::open(&file).unwrap();
        (reader.summary().state, reader.picometres())
    };
    assert_eq!(state(None), (State::Packed, Err(Refusal::PACKED)));
    let longer = state(Some(Kind::Longer));
    assert_eq!(longer, (State::Packed, Err(Refusal::PACKED)));
    let shorter = state(Some(Kind::Shorter));
    assert_eq!(shorter, (State::Unstated, Err(Refusal::CHUNK_NAME)));
    let leaves = state(Some(Kind::NameLeaves));
    assert_eq!(leaves, (State::Unstated, Err(Refusal::CHUNK)));
}

#[test]
fn frames_whose_map_was_left_behind() {
    let mut file = misnamed::good();
    misnamed::inserted(&mut file, 5);
    let file = file.finish();
    let reader = Reader::open(&file).unwrap();
    let numbers = [0, 1, 10].map(|t| number(reader.plane(0, t, 0, 0)));
    assert_eq!(numbers, [0, 29, 29]);
    let frames = reader.register().unwrap();
    assert_eq!(frames.iter().filter(|frame| frame.is_present()).count(), 3);
}

//! Change request 6: 29, where it stands among the numbers of a chunk, and which calls give it.

mod common;

use common::*;
use sample::misnamed::{self, Kind, CHUNKS, KINDS};
use sample::parts::{self, CALIBRATION, CHANNELS};
use sample::tree::{level, u32};
use sample::{Nd2, Rng};
use second::map::{self, Map};
use second::refusal::*;
use second::{chunks, Channel, Range, Summary};

const HEADER: usize = 16;

/// A chunk at byte 3 of so many bytes, whose header says these lengths, asked for a name.
fn chunk(
    mark: u32,
    name_len: u32,
    data_len: u64,
    name: &[u8],
    begins: &[u8],
) -> Result<Range, u32> {
    let mut bytes = vec![0; 3];
    bytes.extend(mark.to_le_bytes());
    bytes.extend(name_len.to_le_bytes());
    bytes.extend(data_len.to_le_bytes());
    bytes.extend(name);
    chunks::data(&bytes, 3, begins, CHUNK_NAME)
}

#[test]
fn the_order_in_a_chunk() {
    let all_wrong = [0; 3 + HEADER - 1];
    let cut = chunks::data(&all_wrong, 3, b"ab!", CHUNK_NAME);
    assert_eq!(cut, Err(CHUNK), "the header leaves the file");
    let asked = |mark, name_len, data_len| chunk(mark, name_len, data_len, b"ac!..", b"ab!");
    assert_eq!(asked(1, 6, 9), Err(CHUNK), "mark and name and data");
    assert_eq!(asked(1, 3, 2), Err(CHUNK), "mark before name");
    assert_eq!(
        asked(chunks::MARK, 6, 9),
        Err(CHUNK),
        "the name leaves the file"
    );
    assert_eq!(
        asked(chunks::MARK, 5, 9),
        Err(CHUNK_NAME),
        "name before data"
    );
    assert_eq!(asked(chunks::MARK, 3, u64::MAX), Err(CHUNK_NAME));
    assert_eq!(asked(chunks::MARK, 3, 2), Err(CHUNK_NAME), "the name alone");
    let named = |data_len| chunk(chunks::MARK, 3, data_len, b"ab!..", b"ab!");
    assert_eq!(named(3), Err(CHUNK), "the data leaves the file");
    assert_eq!(named(2), Ok(Range { start: 22, len: 2 }));
}

#[test]
fn names_that_begin_with_the_maps() {
    let of = |name: &[u8], begins: &[u8]| {
        let found = chunk(chunks::MARK, name.len() as u32, 0, name, begins);
        found.err().unwrap_or(0)
    };
    let frame = b"ImageDataSeq|1!";
    assert_eq!(of(frame, frame), 0);
    assert_eq!(of(b"ImageDataSeq|1!0", frame), 0);
    assert_eq!(of(b"ImageDataSeq|1!\0\xFF!", frame), 0);
    for other in [
        &b"ImageDataSeq|1"[..],
        b"ImageDataSeq|10!",
        b"ImageDataSeq|11!",
        b"ImageDataSeq|2!",
        b"ImageDataSeq|1?",
        b"imageDataSeq|1!",
        b" ImageDataSeq|1!",
        b"",
        b"!",
    ] {
        assert_eq!(of(other, frame), CHUNK_NAME, "{}", other.escape_ascii());
    }
    assert_eq!(of(frame, b"ImageDataSeq|10!"), CHUNK_NAME);
}

#[test]
fn the_maps_own_chunk_stays_4() {
    let (good, other) = (misnamed::good(), misnamed::good());
    let map = good.map();
    assert!(open(&good.finish_with(map::NAME, &map)).is_ok());
    assert_eq!(open(&other.finish_with(b"ND2 FILEMAP", &map)), Err(CHUNK));
}

/// Each call about the file of `misnamed::leading`, with what a chunk's rule gives for one of its chunks.
struct Asked {
    file: Vec<u8>,
    /// The summary of the file in order, with this one's map.
    summary: Summary,
}

fn asked(file: Vec<u8>) -> Asked {
    let mut summary = opened(&misnamed::good().finish());
    summary.map = map::place(&file).expect("a map");
    Asked { file, summary }
}

impl Asked {
    fn plane(&self, t: u64) -> u32 {
        let number = second::plane(&self.file, &self.summary, 0, t, 0, 0, &mut [0; 2]);
        let sheet = second::sheet(&self.file, &self.summary, 0, t, 0, 0, &mut [0; 188]);
        assert_eq!(sheet, number);
        number
    }

    fn tree(&self, name: &str) -> u32 {
        second::tree(
            &self.file,
            &self.summary,
            name.as_bytes(),
            &mut [0; 48 * 20],
        )
    }

    fn border(&self, t: u64) -> u32 {
        second::read_plane(&self.file, &mut [0; 48 * 20], 0, t, 0, 0, &mut [0; 2])
    }

    fn picometres(&self) -> (u32, u64) {
        second::picometres(&self.file, &self.summary, &mut [0; 48 * 20])
    }

    fn channels(&self) -> (u32, Channel) {
        let mut row = [Channel::default()];
        let number = second::channels(&self.file, &self.summary, &mut [0; 48 * 20], &mut row);
        (number, row[0])
    }

    fn register(&self) -> u32 {
        second::register(&self.file, &self.summary, &mut [0; 24 * 11])
    }
}

fn number<T>(answer: Result<T, u32>) -> u32 {
    answer.err().unwrap_or(0)
}

/// The chunk's number where it is this one of `CHUNKS`, otherwise 0.
fn where_it_is(chunk: &str, is: &str, kind: Kind) -> u32 {
    if chunk == is {
        kind.number()
    } else {
        0
    }
}

#[test]
fn each_chunk_in_each_way() {
    for (chunk, i) in CHUNKS {
        for (label, kind) in KINDS {
            let asked = asked(misnamed::leading(i, kind));
            let of = |is| where_it_is(chunk, is, kind);
            let said = format!("{chunk}: {label}");
            let opening = of("attributes").max(of("experiment"));
            assert_eq!(number(open(&asked.file)), opening, "{said}");
            assert_eq!(asked.border(1), opening.max(of("frame")), "{said}");
            assert_eq!(asked.border(0), opening, "{said}");
            assert_eq!((asked.plane(0), asked.plane(1)), (0, of("frame")), "{said}");
            assert_eq!(asked.tree(parts::ATTRIBUTES), of("attributes"), "{said}");
            assert_eq!(asked.tree(parts::EXPERIMENT), of("experiment"), "{said}");
            assert_eq!(asked.tree(CALIBRATION), of("calibration"), "{said}");
            assert_eq!(asked.tree(CHANNELS), of("channels"), "{said}");
            assert_eq!(asked.picometres().0, of("calibration"), "{said}");
            assert_eq!((asked.channels().0, asked.register()), (0, 0), "{said}");
        }
    }
}

#[test]
fn a_calibration_of_another_name_is_none() {
    for (label, kind) in KINDS {
        for file in [
            misnamed::leading(2, kind),
            misnamed::packed_calibration(Some(kind)),
        ] {
            let summary = opened(&file);
            let found = [summary.x, summary.y, summary.z].map(f32::to_bits);
            if kind.number() == 0 {
                assert_ne!(summary.calibration, 0, "{label}");
            } else {
                assert_eq!((summary.calibration, summary.class), (0, 0), "{label}");
                assert_eq!(found, [0; 3], "{label}");
            }
        }
    }
    assert_eq!(opened(&misnamed::packed_calibration(None)).calibration, 2);
    let longer = misnamed::packed_calibration(Some(Kind::Longer));
    assert_eq!(opened(&longer).calibration, 2);
    assert_eq!(
        asked(misnamed::leading(2, Kind::Longer)).picometres(),
        (0, 500_000)
    );
}

/// 18 is not given for a tree that is not come to.
#[test]
fn a_large_calibration_of_another_name() {
    let records = (0..20).map(|i| u32(&format!("n{i}"), i)).collect();
    let calibration = level("SLxCalibration", records);
    let opening = |kind| {
        let mut file = of_trees(&[
            (parts::ATTRIBUTES, parts::attributes(SIZES)),
            (parts::EXPERIMENT, parts::experiment(&[])),
            (CALIBRATION, calibration.clone()),
        ]);
        misnamed::lead(&mut file, 2, kind);
        number(second::open(&file.finish(), &mut [0; 48 * 20]))
    };
    assert_eq!((opening(Kind::Longer), opening(Kind::Shorter)), (TABLE, 0));
}

#[test]
fn channels_of_another_name_are_empty() {
    let lamp = asked(misnamed::good().finish()).channels();
    assert_eq!((lamp.0, lamp.1.named, lamp.1.red), (0, 1, 255));
    for (label, kind) in KINDS {
        let (number, record) = asked(misnamed::leading(3, kind)).channels();
        let named = (kind.number() == 0) as u64;
        assert_eq!(
            (number, record.named, record.colored),
            (0, named, named),
            "{label}"
        );
    }
    // a table without entries is enough for a tree that is not come to
    let other = asked(misnamed::leading(3, Kind::Unnamed));
    let row = &mut [Channel::default()];
    assert_eq!(
        second::channels(&other.file, &other.summary, &mut [], row),
        0
    );
}

/// 29 of a frame comes after 23 and before 24 and 25, 29 of a tree before 18.
#[test]
fn the_order_in_the_calls() {
    let mut file = misnamed::good();
    file.add(&parts::frame_name(2), &[0; 7]);
    misnamed::lead(&mut file, 7, Kind::Shorter);
    let asked = asked(file.finish());
    let plane = |t| second::plane(&asked.file, &asked.summary, 0, t, 0, 0, &mut []);
    assert_eq!(
        (plane(3), plane(2), plane(1)),
        (NO_FRAME, CHUNK_NAME, BUFFER)
    );
    let other = misnamed::leading(0, Kind::Unnamed);
    assert_eq!(second::open(&other, &mut []), Err(CHUNK_NAME));
    let summary = Summary {
        map: map::place(&other).expect("a map"),
        ..asked.summary
    };
    let name = parts::ATTRIBUTES.as_bytes();
    assert_eq!(second::tree(&other, &summary, name, &mut []), CHUNK_NAME);
    assert_eq!(
        second::tree(&other, &summary, b"Nothing!", &mut []),
        MISSING
    );
}

#[test]
fn files_of_several_entries() {
    let files = misnamed::all();
    let planes = |label: &str| {
        let found = files.iter().find(|(name, _)| name == label);
        let asked = asked(found.expect("such a file").1.clone());
        [0, 1, 10].map(|t| asked.plane(t))
    };
    assert_eq!(planes("all in order"), [0; 3]);
    assert_eq!(planes("frame 1 leads to frame 10"), [0, 29, 0]);
    assert_eq!(planes("frame 10 leads to frame 1"), [0, 0, 29]);
    assert_eq!(planes("each frame leads to the one before"), [0, 29, 29]);
    assert_eq!(planes("frame 1 twice, the last one elsewhere"), [0, 29, 0]);
    assert_eq!(planes("frame 1 twice, the first one elsewhere"), [0; 3]);
}

/// How many entries of a file's map lead to a chunk of another name.
fn misled(file: &[u8]) -> usize {
    let place = map::place(file).expect("a map");
    let map = Map::read(chunks::part(file, place).expect("its data")).expect("entries");
    let names: Vec<&[u8]> = map.index().into_keys().collect();
    let numbers = names.iter().map(|name| map.chunk(file, name, MISSING));
    numbers.filter(|chunk| *chunk == Err(CHUNK_NAME)).count()
}

/// What is written without an intent about names bears them.
#[test]
fn usual_files_bear_their_names() {
    let mut files = vec![sample::roller(3, 2, 2, 3, 2), sample::pixel::with_double(0)];
    files.push(sample::whole::FIELDS[10].without());
    files.push(misnamed::good().finish());
    assert!(files.iter().all(|file| misled(file) == 0));
    let one = misnamed::leading(5, Kind::Neighbour);
    assert_eq!(misled(&one), 1);
}

/// One of eight random files has something about a name, and of those most have a chunk of another name.
#[test]
fn random_files_have_their_share() {
    let drawn = |seed| {
        let mut file = misnamed::good();
        misnamed::random(&mut Rng::new(seed), &mut file);
        file
    };
    let before = misnamed::good().entries.len();
    let changed = |file: &Nd2| file.entries.len() > before || misled(&file.clone().finish()) > 0;
    let files: Vec<Nd2> = (0..8000).map(drawn).collect();
    let count = files.iter().filter(|file| changed(file)).count();
    assert!((600..900).contains(&count), "{count}");
    let opened =
        (0..4000).map(|seed| number(second::calls::opened(&sample::random::file(seed), 999)));
    let refused = opened.filter(|&number| number == CHUNK_NAME).count();
    assert!(refused > 40, "{refused}");
}

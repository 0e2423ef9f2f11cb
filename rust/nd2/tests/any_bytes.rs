//! Whatever the bytes are, there is an answer and no panic.

use nd2::raw::{self, FRAME_BYTES, SHEET_HEAD_BYTES, SUMMARY_BYTES};
use nd2::{Reader, Refusal, Sheet, State};
use sample::{random, roller, Rng};

/// Asks everything of a file; gives its refusal, if it does not open.
fn asked(bytes: &[u8]) -> Option<Refusal> {
    let reader = match Reader::open(bytes) {
        Ok(reader) => reader,
        Err(refusal) => return Some(refusal),
    };
    let summary = reader.summary();
    let _ = format!("{reader:?}");
    let last = |count: u64| count.saturating_sub(1);
    let (scene, t) = (last(summary.scenes()), last(summary.times()));
    let (c, z) = (last(summary.components), last(summary.steps()));
    for (scene, t, c, z) in [(0, 0, 0, 0), (scene, t, c, z), (scene + 1, t, c, z)] {
        if let Ok(samples) = reader.plane(scene, t, c, z) {
            assert_eq!(samples.len() as u64, summary.plane_bytes());
        }
        sheet(&reader, [scene, t, c, z]);
    }
    let register = reader.register().unwrap();
    assert_eq!(register.len(), summary.frames());
    assert_eq!(register.iter_present().count() as u64, register.present());
    let channels = reader.channels().unwrap();
    assert_eq!(channels.len() as u64, summary.components);
    picometres(&reader);
    for name in ["ImageMetadataLV!", random::SPARE, "", "!"] {
        if let Ok(tree) = reader.tree(name) {
            let _ = format!("{tree:?}");
        }
    }
    None
}

/// A size is stated where it has picometres or too many of them.
fn picometres(reader: &Reader) {
    let told = reader.picometres();
    let stated = matches!(told, Ok(_) | Err(Refusal::SIZE_RANGE));
    assert_eq!(stated, reader.summary().state == State::Stated, "{told:?}");
    let packed = told == Err(Refusal::PACKED);
    assert_eq!(packed, reader.summary().state == State::Packed, "{told:?}");
}

/// A sheet is there where its plane is, and reading gives that back.
fn sheet(reader: &Reader, [scene, t, c, z]: [u64; 4]) {
    let plane = reader.plane(scene, t, c, z);
    let written = reader.sheet(scene, t, c, z);
    let samples = written.as_ref().map(|s| s[SHEET_HEAD_BYTES..].to_vec());
    assert_eq!(samples.map_err(|refusal| *refusal), plane);
    if let Ok(written) = written {
        let summary = reader.summary();
        let sheet = Sheet::read(&written).unwrap();
        assert_eq!(
            (sheet.width, sheet.height, sheet.bits),
            (summary.width, summary.height, summary.bits)
        );
        assert_eq!(Ok(sheet.samples), plane);
    }
}

#[test]
fn random_files() {
    let answers: Vec<Option<Refusal>> = (0..1500).map(|seed| asked(&random::file(seed))).collect();
    let opened = answers.iter().filter(|answer| answer.is_none()).count();
    assert!(opened > 300, "{opened}");
}

#[test]
fn every_beginning_of_a_file() {
    let bytes = roller(2, 2, 1, 2, 2);
    for len in 0..bytes.len() {
        assert!(asked(&bytes[..len]).is_some(), "{len}");
    }
    assert_eq!(asked(&bytes), None);
}

#[test]
fn hardly_any_bytes() {
    assert_eq!(asked(&[]), Some(Refusal::FOREIGN));
    assert_eq!(asked(&[0xDA, 0xCE, 0xBE, 0x0A]), Some(Refusal::TAIL));
    assert_eq!(asked(&[0, 0, 0, 0x0C]), Some(Refusal::LEGACY));
}

/// A file of loops with these counts, and with these frames.
fn looped(counts: [u32; 3], frames: &[u64]) -> Vec<u8> {
    use sample::{parts, Nd2};
    let sizes = parts::Sizes::packed(1, 1, 1, 8);
    let kinds = [parts::TIME, parts::POINTS, parts::FOCUS];
    let loops = [0, 1, 2].map(|i| (kinds[i], parts::counted(counts[i])));
    let mut file = Nd2::new();
    file.add(parts::ATTRIBUTES, &parts::attributes(sizes).encode());
    file.add(parts::EXPERIMENT, &parts::experiment(&loops).encode());
    for &n in frames {
        file.add(&parts::frame_name(n), &parts::frame(&[n as u8]));
    }
    file.finish()
}

#[test]
fn more_frames_than_there_is_memory_for() {
    const ALL: u64 = 1_000_000_000_000_000_000;
    let bytes = looped([1_000_000; 3], &[ALL - 1, ALL, 7]);
    let reader = Reader::open(&bytes).unwrap();
    assert_eq!(reader.summary().frames(), ALL);
    let register = reader.register().unwrap();
    let counts = (register.len(), register.present(), register.absent());
    assert_eq!(counts, (ALL, 2, ALL - 2));
    let numbers: Vec<u64> = register.iter_present().map(|frame| frame.number).collect();
    assert_eq!(numbers, [7, ALL - 1]);
    let last = register.get(ALL - 1).unwrap();
    assert_eq!((last.scene, last.t, last.z), (999_999, 999_999, 999_999));
    assert_eq!(reader.plane(999_999, 999_999, 0, 999_999), Ok(vec![255]));
    let first = register.iter().take(9).map(|frame| frame.is_present());
    assert_eq!(first.filter(|&present| present).count(), 1);
    assert_eq!(register.get(ALL), None);
    assert_eq!(reader.register_into(&mut [0; 48]), Err(Refusal::BUFFER));
    assert_eq!(reader.plane(999_999, 0, 0, 7), Err(Refusal::NO_FRAME));
}

/// As many frames as the proved call is asked for at once, and one more row of them.
#[test]
fn the_proved_register_ends_where_the_other_begins() {
    let present = [0, 1_999_999, 2_000_000, 2_000_999];
    for (times, count) in [(2000, 2), (2001, 4)] {
        let bytes = looped([times, 1000, 1], &present);
        let register = Reader::open(&bytes).unwrap();
        let register = register.register().unwrap();
        assert_eq!(register.len(), u64::from(times) * 1000);
        let frames: Vec<_> = register.iter_present().collect();
        assert_eq!((frames.len(), register.present()), (count, count as u64));
        for frame in frames {
            let n = frame.number;
            assert_eq!(frame, register.get(n).unwrap());
            assert_eq!(
                (u64::from(frame.t), u64::from(frame.scene)),
                (n / 1000, n % 1000)
            );
            let chunk = frame.offset.unwrap() as usize + 16;
            assert!(bytes[chunk..].starts_with(format!("ImageDataSeq|{n}!").as_bytes()));
        }
    }
}

/// Of more frames than are asked of the proved call at once, every one is as that call has it in a buffer for all of them.
#[test]
fn a_large_register_is_the_proved_one() {
    let rng = &mut Rng::new(3);
    let present: Vec<u64> = (0..3000).map(|_| rng.below(2_100_010)).collect();
    let bytes = looped([30, 7000, 10], &present);
    let reader = Reader::open(&bytes).unwrap();
    let mut records = vec![0xA5; 2_100_000 * FRAME_BYTES];
    reader.register_into(&mut records).unwrap();
    let register = reader.register().unwrap();
    assert_eq!(register.len(), 2_100_000);
    assert!(register.present() > 2900 && register.present() <= 3000);
    for (frame, record) in register.iter().zip(records.chunks_exact(FRAME_BYTES)) {
        let mut told = Vec::new();
        let state = u32::from(!frame.is_present());
        for word in [frame.scene, frame.t, frame.z, state] {
            told.extend_from_slice(&word.to_le_bytes());
        }
        told.extend_from_slice(&frame.offset.unwrap_or(0).to_le_bytes());
        assert!(told == record, "frame {}", frame.number);
    }
}

#[test]
fn planes_larger_than_the_file() {
    use sample::{parts, Nd2};
    let mut file = Nd2::new();
    let sizes = parts::Sizes::packed(65_536, 65_536, 1, 8);
    file.add(parts::ATTRIBUTES, &parts::attributes(sizes).encode());
    file.add(parts::EXPERIMENT, &parts::experiment(&[]).encode());
    file.add(&parts::frame_name(0), &parts::frame(&[0; 100]));
    let bytes = file.finish();
    let reader = Reader::open(&bytes).unwrap();
    assert_eq!(reader.plane(0, 0, 0, 0), Err(Refusal::FRAME_SHORT));
    assert_eq!(reader.sheet(0, 0, 0, 0), Err(Refusal::FRAME_SHORT));
}

/// Files, any bytes, and sheets that were changed somewhere, read as sheets: what is taken is a sheet.
#[test]
fn any_bytes_as_a_sheet() {
    let rng = &mut Rng::new(1);
    let bytes = roller(1, 1, 1, 3, 2);
    let good = Reader::open(&bytes).unwrap().sheet(0, 0, 0, 0).unwrap();
    for seed in 0..300 {
        assert_eq!(Sheet::read(&random::file(seed)), Err(Refusal::SHEET_LAYOUT));
        let len = rng.place(400);
        let mut any = rng.bytes(len);
        assert_eq!(Sheet::read(&any), Err(Refusal::SHEET_LAYOUT));
        let begun = len.min(good.len());
        any[..begun].copy_from_slice(&good[..begun]);
        let refused = Err(Refusal::SHEET_LAYOUT);
        match len == good.len() {
            true => assert!(Sheet::read(&any).is_ok()),
            false => assert_eq!(Sheet::read(&any), refused),
        }
    }
    assert_eq!(Sheet::read(&[]), Err(Refusal::SHEET_LAYOUT));
}

/// Any bytes as file and as summary, tables of any length: a refusal is 0 picometres, and the table is always zero.
#[test]
fn any_bytes_as_a_calibration() {
    let rng = &mut Rng::new(2);
    let mut accepted = 0;
    for seed in 0..1500 {
        let file = random::file(seed);
        let mut summary = [0; SUMMARY_BYTES];
        raw::open(&file, &mut vec![0; 24 * file.len()], &mut summary);
        if rng.one_in(3) {
            let at = rng.place(SUMMARY_BYTES);
            summary[at] = rng.word() as u8;
        }
        let len = rng.place(SUMMARY_BYTES + 1);
        let any = rng.bytes(len);
        for summary in [&summary[..], &summary[..len], &any] {
            let mut table = vec![0xA5; rng.place(700)];
            let mut picometres = u64::MAX;
            let number = raw::picometres(&file, summary, &mut table, &mut picometres);
            assert!(table.iter().all(|&byte| byte == 0), "seed {seed}");
            assert!(number == 0 || picometres == 0, "seed {seed}: {number}");
            accepted += (number == 0) as u32;
        }
    }
    assert!(accepted > 100, "{accepted}");
}

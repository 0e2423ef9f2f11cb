//! One file, and what each contender does with it.

use crate::original::{Opened, Original};
use crate::timing::{Turns, Who};
use nd2::Reader;
use second::Summary;
use std::hint::black_box;

pub const TABLE_BYTES: usize = 256 * 48;
const FRAME_BYTES: usize = 24;

/// One file, opened by all contenders.
pub struct Case<'f> {
    pub file: &'f [u8],
    pub proved: Reader<'f>,
    pub second: Summary,
    original: Option<Opened<'f>>,
}

pub fn second_open(file: &[u8]) -> Option<Summary> {
    second::open(file, &mut vec![0; TABLE_BYTES]).ok()
}

pub fn second_plane(file: &[u8], summary: &Summary, at: [u64; 4], samples: &mut [u8]) -> u32 {
    let [scene, t, c, z] = at;
    second::plane(file, summary, scene, t, c, z, samples)
}

pub fn proved_plane(reader: &Reader, at: [u64; 4], samples: &mut [u8]) -> bool {
    let [scene, t, c, z] = at;
    reader.plane_into(scene, t, c, z, samples).is_ok()
}

pub fn copied(from: &[u8], to: &mut [u8]) {
    to.copy_from_slice(from);
    black_box(to);
}

/// Copies bytes to memory of its own.
pub fn copying(from: &[u8]) -> impl FnMut() + '_ {
    let mut copy = vec![1; from.len()];
    move || copied(from, &mut copy)
}

/// More bytes than caches have.
const LARGER_THAN_CACHES: usize = 128 << 20;

/// A byte of each line of the caches.
const LINE: usize = 64;

/// Reads so many bytes that nothing else is left in the caches. Writing them might pass the caches by.
pub fn emptying_caches() -> impl FnMut() {
    let bytes = vec![1u8; LARGER_THAN_CACHES];
    move || {
        let lines = black_box(&bytes).iter().step_by(LINE);
        black_box(lines.map(|byte| u64::from(*byte)).sum::<u64>());
    }
}

impl<'f> Case<'f> {
    pub fn new(file: &'f [u8], original: Option<Original>) -> Case<'f> {
        let original = original.map(|o| o.open(file).expect("the original opens it"));
        Case {
            file,
            proved: Reader::open(file).expect("it opens"),
            second: second_open(file).expect("the second implementation opens it"),
            original,
        }
    }

    pub fn map(&self) -> &'f [u8] {
        let start = self.proved.summary().map_start as usize;
        &self.file[start..start + self.proved.summary().map_len as usize]
    }

    pub fn plane_bytes(&self) -> usize {
        self.proved.summary().plane_bytes() as usize
    }

    /// The samples of a plane, which all contenders read.
    pub fn agreed_plane(&self, at: [u64; 4]) -> Vec<u8> {
        let mut proved = vec![1; self.plane_bytes()];
        let mut other = vec![2; self.plane_bytes()];
        assert!(proved_plane(&self.proved, at, &mut proved));
        assert_eq!(second_plane(self.file, &self.second, at, &mut other), 0);
        assert!(
            proved == other,
            "the second implementation reads another plane"
        );
        if let Some(original) = &self.original {
            other.fill(3);
            assert_eq!(original.plane_into(at, &mut other), other.len());
            assert!(proved == other, "the original reads another plane");
        }
        proved
    }

    /// One plane. `source` is what memcpy copies.
    pub fn plane<'a>(&'a self, at: [u64; 4], source: &'a [u8]) -> Turns<'a> {
        self.agreed_plane(at);
        let buffer = || vec![1u8; self.plane_bytes()];
        let (mut proved, mut second) = (buffer(), buffer());
        let original = self.original.as_ref();
        Turns::new()
            .and(Who::Memcpy, copying(source))
            .and(Who::Proved, move || {
                assert!(proved_plane(&self.proved, at, black_box(&mut proved)))
            })
            .and(Who::Second, move || {
                let number = second_plane(self.file, &self.second, at, black_box(&mut second));
                assert_eq!(number, 0)
            })
            .and_if(
                Who::Original,
                original.map(|o| move || assert!(o.plane(at) > 0)),
            )
    }

    /// Opening. memcpy copies the map.
    pub fn open(&self, original: Option<Original>) -> Turns<'f> {
        let file = self.file;
        Turns::new()
            .and(Who::Memcpy, copying(self.map()))
            .and(Who::Proved, move || {
                assert!(black_box(Reader::open(file)).is_ok())
            })
            .and(Who::Second, move || {
                assert!(black_box(second_open(file)).is_some())
            })
            .and_if(
                Who::Original,
                original.map(|o| move || assert!(black_box(o.open(file)).is_some())),
            )
    }

    /// The register. memcpy copies the map.
    pub fn register(&self) -> Turns<'_> {
        let bytes = self.register_bytes();
        let buffer = || vec![1u8; bytes];
        let (mut proved, mut second, mut theirs) = (buffer(), buffer(), buffer());
        self.registers_agree();
        let original = self.original.as_ref();
        Turns::new()
            .and(Who::Memcpy, copying(self.map()))
            .and(Who::Proved, move || {
                assert!(self.proved.register_into(black_box(&mut proved)).is_ok())
            })
            .and(Who::Second, move || {
                let number = second::register(self.file, &self.second, black_box(&mut second));
                assert_eq!(number, 0)
            })
            .and_if(
                Who::Original,
                original.map(|o| move || assert_eq!(o.register(black_box(&mut theirs)), bytes)),
            )
    }

    /// The pixel size in picometres. memcpy copies the map.
    pub fn picometres(&self) -> Turns<'_> {
        let size = self.proved.picometres().expect("a pixel size");
        let mut table = vec![1; TABLE_BYTES];
        Turns::new()
            .and(Who::Memcpy, copying(self.map()))
            .and(Who::Proved, move || {
                assert_eq!(black_box(self.proved.picometres()), Ok(size))
            })
            .and(Who::Second, move || {
                let told = second::picometres(self.file, &self.second, black_box(&mut table));
                assert_eq!(told, (0, size))
            })
    }

    fn register_bytes(&self) -> usize {
        self.proved.summary().frames() as usize * FRAME_BYTES
    }

    fn registers_agree(&self) {
        let buffer = || vec![1u8; self.register_bytes()];
        let (mut proved, mut second, mut original) = (buffer(), buffer(), buffer());
        assert!(self.proved.register_into(&mut proved).is_ok());
        assert_eq!(second::register(self.file, &self.second, &mut second), 0);
        assert!(
            proved == second,
            "the second implementation has another register"
        );
        if let Some(o) = &self.original {
            o.register(&mut original);
            assert!(proved == original, "the original has another register");
        }
    }
}

pub fn components(count: u64) -> String {
    match count {
        1 => "1 component".to_string(),
        count => format!("{count} components"),
    }
}

/// Where the rows of each frame begin in the file: after the head, the name and the prefix of its chunk.
pub fn row_starts(case: &Case) -> Vec<usize> {
    let frames = case.proved.register().expect("a register");
    let start = |offset: usize| {
        let name: [u8; 4] = [4, 5, 6, 7].map(|i| case.file[offset + i]);
        offset + 16 + u32::from_le_bytes(name) as usize + 8
    };
    let offsets = frames.iter().map(|frame| frame.offset.expect("a frame"));
    offsets.map(|offset| start(offset as usize)).collect()
}

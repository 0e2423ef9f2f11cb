//! The register: which frames the file has, and where.

use crate::bytes::{part, u32_at, u64_at};
use crate::entries::Listed;
use crate::raw::{self, FRAME_BYTES, SUMMARY_BYTES};
use crate::reader::{records, zeroed};
use crate::refusal::Refusal;
use crate::summary::{Axis, Summary};
use std::fmt;

/// The proved call writes the registers of up to so many frames, 48 MB. A map has no more entries, so that of more frames
/// some are absent.
const MOST_PROVED: u64 = 2_000_000;

/// One frame of the register.
#[derive(Clone, Copy, Debug, PartialEq, Eq, Hash)]
pub struct Frame {
    /// Its number, counted from 0 by the loops, the last of which runs fastest.
    pub number: u64,
    /// The scene.
    pub scene: u32,
    /// The time.
    pub t: u32,
    /// The focus step.
    pub z: u32,
    /// Where the map says that its chunk begins; none if the map does not have it.
    pub offset: Option<u64>,
}

impl Frame {
    fn read(number: u64, record: &[u8]) -> Frame {
        Frame {
            number,
            scene: u32_at(record, 0),
            t: u32_at(record, 4),
            z: u32_at(record, 8),
            offset: (u32_at(record, 12) == 0).then(|| u64_at(record, 16)),
        }
    }

    /// Whether the map has the frame.
    pub fn is_present(&self) -> bool {
        self.offset.is_some()
    }
}

/// Every frame that the loops make, in order of its number, told one by one.
///
/// The register of up to 2,000,000 frames, as many as a map has entries, is what the proved call writes
/// ([`raw::register`]), kept as it is: 24 bytes a frame. With more frames it would be as long as a file of a few
/// hundred bytes likes, so there only the frames that the map has are kept, 16 bytes each. These this crate looks for
/// itself: that part is not proved, and held against the proved call by tests.
pub struct Register<'a> {
    summary: Summary,
    kept: Kept<'a>,
}

enum Kept<'a> {
    /// What the proved call wrote.
    Proved(Vec<u8>),
    /// The map's own entries of frames.
    Listed(Listed<'a>),
}

impl<'a> Register<'a> {
    pub(crate) fn new(
        file: &'a [u8],
        laid: &[u8; SUMMARY_BYTES],
        summary: &Summary,
    ) -> Result<Register<'a>, Refusal> {
        let kept = match summary.frames() <= MOST_PROVED {
            true => proved(file, laid, summary.frames())?,
            false => listed(file, laid, summary)?,
        };
        let summary = summary.clone();
        Ok(Register { summary, kept })
    }

    /// How many frames the loops make.
    pub fn len(&self) -> u64 {
        self.summary.frames()
    }

    /// Whether there are none, which no file says.
    pub fn is_empty(&self) -> bool {
        self.len() == 0
    }

    /// How many of them the map has.
    pub fn present(&self) -> u64 {
        match &self.kept {
            Kept::Proved(_) => self.iter().filter(Frame::is_present).count() as u64,
            Kept::Listed(listed) => listed.len() as u64,
        }
    }

    /// How many of them it does not have.
    pub fn absent(&self) -> u64 {
        self.len() - self.present()
    }

    /// The frame of a number.
    pub fn get(&self, number: u64) -> Option<Frame> {
        if number >= self.len() {
            return None;
        }
        match &self.kept {
            Kept::Proved(records) => {
                let at = usize::try_from(number).ok()?.checked_mul(FRAME_BYTES)?;
                let record = records.get(at..at.checked_add(FRAME_BYTES)?)?;
                Some(Frame::read(number, record))
            }
            Kept::Listed(listed) => Some(self.frame(number, listed.offset(number))),
        }
    }

    /// A frame whose indices are worked out here.
    fn frame(&self, number: u64, offset: Option<u64>) -> Frame {
        // a loop has at most 1,000,000 values
        let index = |axis| self.summary.index(axis, number) as u32;
        Frame {
            number,
            scene: index(Axis::P),
            t: index(Axis::T),
            z: index(Axis::Z),
            offset,
        }
    }

    /// All frames.
    pub fn iter(&self) -> Frames<'_> {
        Frames {
            register: self,
            next: 0,
        }
    }

    /// The frames that the map has. Those that are absent are not stepped through, however many they are.
    pub fn iter_present(&self) -> impl Iterator<Item = Frame> + '_ {
        let count = match &self.kept {
            Kept::Proved(_) => self.len() as usize,
            Kept::Listed(listed) => listed.len(),
        };
        let one = move |i: usize| match &self.kept {
            Kept::Proved(_) => self.get(i as u64).filter(Frame::is_present),
            Kept::Listed(listed) => listed.nth(i).map(|(n, at)| self.frame(n, Some(at))),
        };
        (0..count).filter_map(one)
    }
}

/// The register of so many frames by the proved call.
fn proved<'a>(file: &[u8], laid: &[u8; SUMMARY_BYTES], frames: u64) -> Result<Kept<'a>, Refusal> {
    let bytes = records(frames, FRAME_BYTES).and_then(zeroed);
    let mut records = bytes.ok_or(Refusal::BUFFER)?;
    Refusal::of_call(raw::register(file, laid, &mut records))?;
    Ok(Kept::Proved(records))
}

/// The map's entries of frames, where the proved call has nothing against the file but that no buffer is lent.
fn listed<'a>(
    file: &'a [u8],
    laid: &[u8; SUMMARY_BYTES],
    summary: &Summary,
) -> Result<Kept<'a>, Refusal> {
    match Refusal::of_call(raw::register(file, laid, &mut [])) {
        Ok(()) | Err(Refusal::BUFFER) => {}
        Err(refusal) => return Err(refusal),
    }
    let map = part(file, summary.map_start, summary.map_len);
    let listed = Listed::read(map, summary.frames()).ok_or(Refusal::BUFFER)?;
    Ok(Kept::Listed(listed))
}

/// The frames of a register, in order.
#[derive(Clone, Debug)]
pub struct Frames<'r> {
    register: &'r Register<'r>,
    next: u64,
}

impl Iterator for Frames<'_> {
    type Item = Frame;

    fn next(&mut self) -> Option<Frame> {
        let frame = self.register.get(self.next)?;
        self.next += 1;
        Some(frame)
    }

    fn nth(&mut self, n: usize) -> Option<Frame> {
        self.next = self.next.saturating_add(n as u64);
        self.next()
    }

    fn size_hint(&self) -> (usize, Option<usize>) {
        let left = self.register.len().saturating_sub(self.next) as usize;
        (left, Some(left))
    }
}

impl ExactSizeIterator for Frames<'_> {}

impl<'r> IntoIterator for &'r Register<'_> {
    type Item = Frame;
    type IntoIter = Frames<'r>;

    fn into_iter(self) -> Frames<'r> {
        self.iter()
    }
}

impl fmt::Debug for Register<'_> {
    fn fmt(&self, f: &mut fmt::Formatter<'_>) -> fmt::Result {
        let mut out = f.debug_struct("Register");
        out.field("frames", &self.len());
        out.field("present", &self.present()).finish()
    }
}

#[cfg(test)]
mod tests {
    use super::*;
    use crate::reader::Reader;
    use sample::file::MapEntry;
    use sample::{parts, random, Nd2, Rng};

    /// The register by the proved call and by the map's own entries, where a file opens and has few frames.
    fn both(file: &[u8]) -> Option<[Register<'_>; 2]> {
        let mut laid = [0; SUMMARY_BYTES];
        raw::open(file, &mut vec![0; 24 * file.len()], &mut laid);
        let reader = Reader::open(file).ok()?;
        let summary = reader.summary();
        if summary.frames() > 100_000 {
            return None;
        }
        let kept = [
            proved(file, &laid, summary.frames()),
            listed(file, &laid, summary),
        ];
        Some(kept.map(|kept| Register {
            summary: summary.clone(),
            kept: kept.unwrap(),
        }))
    }

    /// Every question has the same answer; how many frames are present.
    fn agree(registers: [Register; 2], what: &str) -> u64 {
        let [proved, listed] = registers;
        assert!(matches!(proved.kept, Kept::Proved(_)));
        assert!(matches!(listed.kept, Kept::Listed(_)));
        assert_eq!(proved.len(), listed.len(), "{what}");
        assert_eq!(proved.present(), listed.present(), "{what}");
        assert!(proved.iter().eq(listed.iter()), "{what}");
        assert!(proved.iter_present().eq(listed.iter_present()), "{what}");
        let present = proved.iter().filter(Frame::is_present);
        assert!(present.eq(listed.iter_present()), "{what}");
        assert_eq!(listed.get(listed.len()), None);
        proved.present()
    }

    #[test]
    fn both_ways_agree_on_random_files() {
        let (mut files, mut present) = (0, 0);
        for seed in 0..6000 {
            let file = random::file(seed);
            if let Some(registers) = both(&file) {
                files += 1;
                present += agree(registers, &format!("seed {seed}"));
            }
        }
        assert!(files > 1000 && present > 4000, "{files}, {present}");
    }

    /// A name that is a frame's, or nearly.
    fn name(rng: &mut Rng) -> Vec<u8> {
        let n = rng.below(14);
        let text = match rng.below(12) {
            0 => format!("ImageDataSeq|0{n}!"),
            1 => format!("ImageDataSeq|+{n}!"),
            2 => format!("ImageDataSeq|{n} !"),
            3 => format!("imageDataSeq|{n}!"),
            4 => format!("XImageDataSeq|{n}!"),
            5 => rng
                .pick(&["ImageDataSeq|!", "ImageDataSeq|-0!", "!"])
                .to_string(),
            6 => format!("ImageDataSeq|{}!", (1u128 << 64) + u128::from(n)),
            _ => parts::frame_name(n),
        };
        text.into_bytes()
    }

    /// A file of up to three loops in some order, whose map has frames at any places, often more than once.
    fn crowded(rng: &mut Rng) -> Vec<u8> {
        let mut loops = [parts::TIME, parts::POINTS, parts::FOCUS].to_vec();
        loops.rotate_left(rng.place(3));
        loops.truncate(rng.place(4));
        let counted = |kind| (kind, parts::counted(rng.between(1, 4) as u32));
        let loops: Vec<_> = loops.into_iter().map(counted).collect();
        let mut file = Nd2::new();
        let sizes = parts::Sizes::packed(1, 1, 1, 8);
        file.add(parts::ATTRIBUTES, &parts::attributes(sizes).encode());
        file.add(parts::EXPERIMENT, &parts::experiment(&loops).encode());
        for _ in 0..rng.place(60) {
            let (offset, size) = (rng.word(), rng.word());
            let name = name(rng);
            file.entries.push(MapEntry { name, offset, size });
        }
        file.finish()
    }

    #[test]
    fn both_ways_agree_on_crowded_maps() {
        let rng = &mut Rng::new(7);
        let mut present = 0;
        for turn in 0..3000 {
            let file = crowded(rng);
            let registers = both(&file).expect("it opens");
            present += agree(registers, &format!("turn {turn}"));
        }
        assert!(present > 5000, "{present}");
    }

    #[test]
    fn frames_are_told_from_any_place_on() {
        let file = sample::roller(3, 2, 1, 1, 1);
        let register = Reader::open(&file).unwrap().register().unwrap();
        let mut frames = register.iter();
        assert_eq!((frames.len(), frames.nth(4).unwrap().number), (6, 4));
        let last = frames.next().unwrap();
        assert_eq!((last.number, last.scene, last.z), (5, 2, 1));
        assert_eq!((frames.next(), frames.nth(usize::MAX)), (None, None));
        assert!(!register.is_empty());
        assert_eq!(
            format!("{register:?}"),
            "Register { frames: 6, present: 6 }"
        );
    }
}

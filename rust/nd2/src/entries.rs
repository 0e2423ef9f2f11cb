//! The map's entries of frames, looked for without the proved calls: for more frames than these can be asked for at once.

use crate::bytes::u64_at;

/// What the name of a frame's chunk begins with; its number and a `!` follow.
const FRAME: &[u8] = b"ImageDataSeq|";
/// The name that ends a map.
const END: &[u8] = b"ND2 CHUNK MAP SIGNATURE 0000001!";
/// The bytes behind the name of an entry: offset and size.
const AFTER_NAME: usize = 16;

/// The frames that a map has, by rising number.
pub struct Listed<'a> {
    map: &'a [u8],
    /// A frame's number, and where in the map its offset stands.
    frames: Vec<(u64, usize)>,
}

impl<'a> Listed<'a> {
    /// The entries of frames below a number in a map's data; none where there is no memory for them. Of several entries of
    /// one name the last counts.
    pub fn read(map: &'a [u8], below: u64) -> Option<Listed<'a>> {
        let mut frames = Vec::new();
        for (name, at) in entries(map) {
            if let Some(number) = number(name).filter(|&number| number < below) {
                frames.try_reserve(1).ok()?;
                frames.push((number, at));
            }
        }
        frames.sort_unstable();
        // of one number the last entry of the map comes last: it is kept
        frames.reverse();
        frames.dedup_by_key(|frame| frame.0);
        frames.reverse();
        Some(Listed { map, frames })
    }

    /// How many frames there are.
    pub fn len(&self) -> usize {
        self.frames.len()
    }

    /// The frame at a place in the list: its number and its offset.
    pub fn nth(&self, place: usize) -> Option<(u64, u64)> {
        let (number, at) = self.frames.get(place)?;
        Some((*number, u64_at(self.map, *at)))
    }

    /// The offset of the frame of a number.
    pub fn offset(&self, number: u64) -> Option<u64> {
        let place = self.frames.binary_search_by_key(&number, |frame| frame.0);
        place
            .ok()
            .and_then(|place| self.nth(place))
            .map(|(_, offset)| offset)
    }
}

/// The names of a map up to its end, and where the offset of each stands.
fn entries(map: &[u8]) -> impl Iterator<Item = (&[u8], usize)> {
    let mut at = 0;
    std::iter::from_fn(move || {
        let rest = map.get(at..)?;
        let len = rest.iter().position(|&byte| byte == b'!')? + 1;
        let (name, place) = (&rest[..len], at + len);
        rest.get(len..len + AFTER_NAME).filter(|_| name != END)?;
        at = place + AFTER_NAME;
        Some((name, place))
    })
}

/// The number of a frame whose chunk has a name: digits without a leading zero.
fn number(name: &[u8]) -> Option<u64> {
    let digits = name.strip_prefix(FRAME)?.strip_suffix(b"!")?;
    let plain = digits.iter().all(u8::is_ascii_digit);
    let leading = digits.len() > 1 && digits[0] == b'0';
    std::str::from_utf8(digits)
        .ok()
        .filter(|_| plain && !leading)?
        .parse()
        .ok()
}

//! Why a file is turned away.

use std::error::Error;
use std::fmt;

/// Why a call gave no answer: a number, a trade word and a sentence.
///
/// ```
/// use nd2::Refusal;
///
/// let refusal = nd2::Reader::open(b"no such file").unwrap_err();
/// assert_eq!(refusal, Refusal::FOREIGN);
/// assert_eq!(refusal.number(), 1);
/// assert_eq!(refusal.to_string(), "foreign: not an ND2 file (1)");
/// ```
#[derive(Clone, Copy, PartialEq, Eq, Hash, PartialOrd, Ord)]
pub struct Refusal(u32);

/// Names for the numbers, and the table of all of them.
macro_rules! refusals {
    ($($number:literal $name:ident $word:literal $sentence:literal)*) => {
        impl Refusal {
            $(#[doc = concat!(stringify!($number), ": ", $sentence, ".")]
            pub const $name: Refusal = Refusal($number);)*

            /// Every refusal, by rising number.
            pub const ALL: &'static [Refusal] = &[$(Refusal::$name),*];
        }

        const TEXTS: &[(&str, &str)] = &[$(($word, $sentence)),*];
    };
}

refusals! {
    1 FOREIGN "foreign" "not an ND2 file"
    2 LEGACY "legacy" "an older ND2 file, based on JPEG 2000"
    3 TAIL "tail" "no map locator at the end of the file"
    4 CHUNK "chunk" "a chunk is not where the map says, or leaves the file"
    5 MAP "map" "the map is cut, has no end mark, or has more than 2,000,000 entries"
    6 CUT "cut" "a tree is cut short"
    7 KIND "kind" "a record of a tree has no known type"
    8 PACKED "packed" "a tree has a packed record"
    9 DEEP "deep" "a tree is over 64 levels deep"
    10 LEVEL "level" "a level states too many items, or is shorter than its head"
    11 MISSING "missing" "a chunk or a value that is needed is absent"
    12 COMPRESSION "compression" "the planes are compressed, or it is not stated that they are not"
    13 BITS "bits" "samples are not of 8, 16 or 32 bits"
    14 FRAME_SHAPE "frame shape" "the sizes of a frame do not fit together"
    15 LOOP_KIND "loop kind" "a loop is of a kind that is not read"
    16 LOOP_COUNT "loop count" "a loop has more than 1,000,000 values"
    17 AXIS_TWICE "axis twice" "two loops run over one axis"
    18 TABLE "table" "there is no room for the entries of a tree"
    19 CHANNEL_ROW "channel row" "there are fewer channel records than components"
    20 SUMMARY "summary" "the summary is none that can be used"
    21 INDEX "index" "scene, t, c or z is not below its count"
    22 CEILING "ceiling" "a plane has more than 4,294,967,296 bytes"
    23 NO_FRAME "no frame" "the map has no entry for the frame"
    24 FRAME_SHORT "frame short" "the frame's data is too short"
    25 BUFFER "buffer" "the buffer is too short for the answer"
    26 SHEET_LONG "sheet long" "a sheet would have more than 4,294,967,295 bytes"
    27 SHEET_LAYOUT "sheet layout" "the sheet is not of this reader's layout"
    28 SIZE_RANGE "size range" "the pixel size is infinite, or more than 2^64 - 1 picometres"
    29 CHUNK_NAME "chunk name" "a chunk does not bear the name that the map has for it"
}

impl Refusal {
    /// The refusal of a number; none for 0, which says that a call was accepted.
    ///
    /// ```
    /// use nd2::Refusal;
    /// assert_eq!(Refusal::from_number(23), Some(Refusal::NO_FRAME));
    /// assert_eq!(Refusal::from_number(0), None);
    /// ```
    pub const fn from_number(number: u32) -> Option<Refusal> {
        match number {
            0 => None,
            _ => Some(Refusal(number)),
        }
    }

    /// Its number.
    pub const fn number(self) -> u32 {
        self.0
    }

    /// Its trade word, as "no frame".
    pub fn word(self) -> &'static str {
        self.text().0
    }

    /// What is wrong, in a sentence without its full stop.
    pub fn sentence(self) -> &'static str {
        self.text().1
    }

    fn text(self) -> (&'static str, &'static str) {
        let place = (self.0 as usize).checked_sub(1);
        let text = place.and_then(|place| TEXTS.get(place));
        *text.unwrap_or(&("unknown", "a refusal that this version does not know"))
    }

    /// The answer of a call that returned a number.
    pub(crate) fn of_call(number: u32) -> Result<(), Refusal> {
        match Refusal::from_number(number) {
            None => Ok(()),
            Some(refusal) => Err(refusal),
        }
    }
}

impl fmt::Display for Refusal {
    fn fmt(&self, f: &mut fmt::Formatter<'_>) -> fmt::Result {
        write!(f, "{}: {} ({})", self.word(), self.sentence(), self.0)
    }
}

impl fmt::Debug for Refusal {
    fn fmt(&self, f: &mut fmt::Formatter<'_>) -> fmt::Result {
        let mut out = f.debug_struct("Refusal");
        out.field("number", &self.0);
        out.field("word", &self.word());
        out.field("sentence", &self.sentence()).finish()
    }
}

impl Error for Refusal {}

#[cfg(test)]
mod tests {
    use super::*;

    #[test]
    fn numbers_rise_from_one_without_gaps() {
        let numbers: Vec<u32> = Refusal::ALL.iter().map(|r| r.number()).collect();
        assert_eq!(numbers, (1..=29).collect::<Vec<u32>>());
    }

    #[test]
    fn each_number_has_its_word() {
        assert_eq!(Refusal::FOREIGN.word(), "foreign");
        assert_eq!(Refusal::TABLE.word(), "table");
        assert_eq!(Refusal::BUFFER.word(), "buffer");
        assert_eq!(Refusal::SHEET_LONG.word(), "sheet long");
        assert_eq!(Refusal::SHEET_LAYOUT.word(), "sheet layout");
        assert_eq!(Refusal::SIZE_RANGE.word(), "size range");
        assert_eq!(Refusal::CHUNK_NAME.word(), "chunk name");
    }

    #[test]
    fn debug_has_the_number_the_word_and_the_sentence() {
        assert_eq!(
            format!("{:?}", Refusal::NO_FRAME),
            "Refusal { number: 23, word: \"no frame\", sentence: \"the map has no entry for the frame\" }"
        );
    }

    #[test]
    fn an_unknown_number_is_told() {
        let told = Refusal::from_number(u32::MAX).map(|r| r.to_string());
        assert_eq!(
            told.as_deref(),
            Some("unknown: a refusal that this version does not know (4294967295)")
        );
    }
}

//! Files whose map leads to a chunk of another name, as a script leaves them that put chunks in; and files in which the name
//! of a chunk is just enough.

use crate::file::{MapEntry, Nd2};
use crate::parts::{self, Plane, Sizes};
use crate::rng::Rng;
use crate::tree::packed;

/// Where a map's entry leads instead of to its own chunk. But for the first, that is a further chunk with the data of its
/// own.
#[derive(Clone, Copy, Debug, PartialEq, Eq)]
pub enum Kind {
    /// The chunk after its own; from the last one the chunk before it.
    Neighbour,
    /// A name that goes on behind the entry's, which a chunk may have.
    Longer,
    /// A name that lacks the `!`.
    Shorter,
    Unnamed,
    FirstByte,
    LastByte,
    /// The entry's name behind another byte.
    Behind,
    /// Another name, and the data leaves the file.
    DataLeaves,
    /// Another name, which leaves the file.
    NameLeaves,
    /// A name that goes on, and the data leaves the file.
    LongerDataLeaves,
    /// Another name, and no chunk's mark.
    Unmarked,
}

/// Every kind, by a label.
pub const KINDS: [(&str, Kind); 11] = [
    ("the chunk beside it", Kind::Neighbour),
    ("a longer name", Kind::Longer),
    ("a name without its !", Kind::Shorter),
    ("no name", Kind::Unnamed),
    ("another first byte", Kind::FirstByte),
    ("another last byte", Kind::LastByte),
    ("a byte before the name", Kind::Behind),
    ("another name, data past the end", Kind::DataLeaves),
    ("another name, past the end", Kind::NameLeaves),
    ("a longer name, data past the end", Kind::LongerDataLeaves),
    ("another name, no mark", Kind::Unmarked),
];

impl Kind {
    /// What the rule of a chunk gives for it: 4, 29, or 0 for none.
    pub fn number(self) -> u32 {
        match self {
            Kind::Longer => 0,
            Kind::NameLeaves | Kind::LongerDataLeaves | Kind::Unmarked => 4,
            _ => 29,
        }
    }

    /// What the chunk is called that an entry of this name leads to.
    fn name(self, entry: &[u8]) -> Vec<u8> {
        let mut name = entry.to_vec();
        let last = name.len().saturating_sub(1);
        match self {
            Kind::Neighbour => {}
            Kind::Longer | Kind::LongerDataLeaves => name.extend_from_slice(b"0!"),
            Kind::Shorter | Kind::DataLeaves => name.truncate(last),
            Kind::Unnamed => name.clear(),
            Kind::FirstByte | Kind::NameLeaves | Kind::Unmarked => name[0] ^= 0x20,
            Kind::LastByte => name[last] = b'?',
            Kind::Behind => name.insert(0, b'I'),
        }
        name
    }

    /// Changes the header of its chunk, where the kind is of more than a name.
    fn change(self, header: &mut [u8]) {
        match self {
            Kind::DataLeaves | Kind::LongerDataLeaves => {
                header[8..16].copy_from_slice(&(1u64 << 40).to_le_bytes())
            }
            Kind::NameLeaves => header[4..8].copy_from_slice(&u32::MAX.to_le_bytes()),
            Kind::Unmarked => header[0] ^= 1,
            _ => {}
        }
    }
}

/// The data of the chunk that an entry leads to.
fn data_of(file: &Nd2, entry: &MapEntry) -> Vec<u8> {
    let header = entry.offset as usize;
    let start = header + 16 + entry.name.len();
    let end = start + entry.size as usize;
    file.bytes[start..end].to_vec()
}

/// Lets entry number `i` of a map, in which each one leads to its own chunk, lead elsewhere.
pub fn lead(file: &mut Nd2, i: usize, kind: Kind) {
    let data = data_of(file, &file.entries[i]);
    lead_to(file, i, kind, &data);
}

/// The same to a chunk with other data.
fn lead_to(file: &mut Nd2, i: usize, kind: Kind, data: &[u8]) {
    if kind == Kind::Neighbour {
        let last = file.entries.len() - 1;
        let beside = if i < last { i + 1 } else { last - 1 };
        return follow(file, i, beside);
    }
    let place = file.bytes.len();
    let name = kind.name(&file.entries[i].name);
    file.chunk(&name, data);
    kind.change(&mut file.bytes[place..]);
    file.entries[i].offset = place as u64;
}

/// As if a chunk had been put in before entry number `from`, which is above 0, and the map had not followed: from there on
/// each entry leads to the chunk before its own.
pub fn inserted(file: &mut Nd2, from: usize) {
    for i in (from..file.entries.len()).rev() {
        follow(file, i, i - 1);
    }
}

/// A further chunk with the name of entry number `i` and each byte of its data inverted, and an entry for it, which is the
/// map's last or its first.
fn twice(file: &mut Nd2, i: usize, last: bool) {
    let mut again = file.entries[i].clone();
    let data: Vec<u8> = data_of(file, &again).iter().map(|byte| !byte).collect();
    again.offset = file.bytes.len() as u64;
    file.chunk(&again.name, &data);
    let place = if last { file.entries.len() } else { 0 };
    file.entries.insert(place, again);
}

/// In one of eight files something about a chunk's name: mostly one entry that leads elsewhere, one of the first five, where
/// the trees are, the first frame's, or any.
pub fn random(rng: &mut Rng, file: &mut Nd2) {
    let entries = file.entries.len();
    if entries < 2 || !rng.one_in(8) {
        return;
    }
    let frame = parts::frame_name(0).into_bytes();
    let frame = file.entries.iter().position(|entry| entry.name == frame);
    let any = rng.place(entries);
    let tree = rng.place(entries.min(5));
    let i = rng.pick(&[tree, frame.unwrap_or(any), any]);
    let (_, kind) = rng.pick(&KINDS);
    match rng.below(8) {
        0 => inserted(file, i.max(1)),
        1 => twice(file, i, rng.one_in(2)),
        2 if kind.number() == 29 => lead_to(file, i, kind, &packed(&[0; 12]).encode()),
        _ => lead(file, i, kind),
    }
}

/// The frames that `good` has, of eleven: the name of each is no beginning of another's.
const FRAMES: [u64; 3] = [0, 1, 10];

/// A file in which all is in order: attributes, experiment, calibration, channels and three frames of two samples.
pub fn good() -> Nd2 {
    let loops = [(parts::TIME, parts::counted(11))];
    let trees = [
        (
            parts::ATTRIBUTES,
            parts::attributes(Sizes::packed(2, 1, 1, 8)),
        ),
        (parts::EXPERIMENT, parts::experiment(&loops)),
        (parts::CALIBRATION, parts::calibration(0.5)),
        (parts::CHANNELS, parts::channels(&[Plane::new("lamp", 255)])),
    ];
    let mut file = Nd2::new();
    for (name, tree) in trees {
        file.add(name, &tree.encode());
    }
    for n in FRAMES {
        file.add(&parts::frame_name(n), &parts::frame(&[n as u8, 7]));
    }
    file
}

/// The chunks of `good` that calls come to through the map, by their entries there. The frame is number 1.
pub const CHUNKS: [(&str, usize); 5] = [
    ("attributes", 0),
    ("experiment", 1),
    ("calibration", 2),
    ("channels", 3),
    ("frame", 5),
];

/// `good`, with entry number `i` leading elsewhere.
pub fn leading(i: usize, kind: Kind) -> Vec<u8> {
    changed(|file| lead(file, i, kind))
}

/// `good`, changed.
fn changed(change: impl FnOnce(&mut Nd2)) -> Vec<u8> {
    let mut file = good();
    change(&mut file);
    file.finish()
}

/// `good`, with its calibration packed, in a chunk of another name or of its own.
pub fn packed_calibration(kind: Option<Kind>) -> Vec<u8> {
    let data = packed(&[0; 12]).encode();
    changed(|file| match kind {
        Some(kind) => lead_to(file, 2, kind, &data),
        None => {
            file.entries.remove(2);
            file.add(parts::CALIBRATION, &data);
        }
    })
}

/// A label and a file.
pub type Labelled = (String, Vec<u8>);

/// Each of these chunks in each of the ways, and some files of more than one entry.
pub fn all() -> Vec<Labelled> {
    let of_chunk = |(chunk, i): (&str, usize)| {
        let file = move |(label, kind)| (format!("{chunk}: {label}"), leading(i, kind));
        KINDS.map(file)
    };
    let mut files: Vec<Labelled> = CHUNKS.into_iter().flat_map(of_chunk).collect();
    let several = several().into_iter();
    files.extend(several.map(|(label, file)| (label.to_string(), file)));
    files
}

/// Files in which it matters which entry leads where, and packed calibrations.
pub fn several() -> Vec<(&'static str, Vec<u8>)> {
    let mut files = SEVERAL
        .map(|(label, change)| (label, changed(change)))
        .to_vec();
    files.push(("a packed calibration", packed_calibration(None)));
    let other = packed_calibration(Some(Kind::Shorter));
    files.push(("a packed calibration of another name", other));
    files
}

/// What becomes of `good`.
type Change = fn(&mut Nd2);

const SEVERAL: [(&str, Change); 7] = [
    ("all in order", |_| {}),
    ("frame 1 leads to frame 10", |f| follow(f, 5, 6)),
    ("frame 10 leads to frame 1", |f| follow(f, 6, 5)),
    ("each frame leads to the one before", |f| inserted(f, 5)),
    ("a chunk put in before the experiment", |f| inserted(f, 1)),
    ("frame 1 twice, the last one elsewhere", |f| again(f, 5)),
    ("frame 1 twice, the first one elsewhere", |f| {
        again(f, 5);
        f.entries.rotate_right(1);
    }),
];

/// Lets one entry lead where another does.
fn follow(file: &mut Nd2, i: usize, other: usize) {
    file.entries[i].offset = file.entries[other].offset;
}

/// One more entry of the name of entry number `i`, which leads to a chunk of another name.
fn again(file: &mut Nd2, i: usize) {
    file.entries.push(file.entries[i].clone());
    let last = file.entries.len() - 1;
    lead(file, last, Kind::LastByte);
}

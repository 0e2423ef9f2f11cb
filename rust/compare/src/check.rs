//! One reader's answers held against the original's, and against document 01 where the original has no counterpart.

use crate::answers::{Answers, Lent};
use crate::numbers::number;
use crate::original::{Answer, ChannelTold, Opened, Told};
use crate::table;
use crate::wire::Out;
use plan::{Plan, MOST_FRAMES, TREES};
use second::channels::all_single;
use second::names::{scalars, units_at};
use second::refusal::{BUFFER, CHANNEL_ROW, CHUNK, CHUNK_NAME, MAP, PACKED, SUMMARY, TABLE};
use second::sheets::HEAD_BYTES;
use second::trees::{written, ENTRY_BYTES};
use second::values::{root, Level, Value};
use second::{Channel, Summary};

/// The differences that docs/DIFFERENCES.md lists, by their names there.
#[derive(Clone, Copy, Debug, PartialEq, Eq, Hash, PartialOrd, Ord)]
pub enum Listed {
    MapLimit,
    PackedRecords,
    Memory,
}

impl Listed {
    pub const ALL: [Listed; 3] = [Listed::MapLimit, Listed::PackedRecords, Listed::Memory];

    pub fn name(self) -> &'static str {
        match self {
            Listed::MapLimit => "The map's limit",
            Listed::PackedRecords => "Packed records",
            Listed::Memory => "Memory",
        }
    }
}

/// A map of 2,000,001 entries has at least 17 bytes for each.
const LIMIT_BYTES: usize = 17 * 2_000_001;

/// The original passes over ten bytes after a packed record's first two; this is its message where there are fewer.
const NO_TEN_BYTES: &str = "ND2 read out of bounds: need 10 bytes";

/// What came out of one file: differences that are listed, those that are not, what became of its channels and sheets.
#[derive(Default)]
pub struct Findings {
    pub listed: Vec<Listed>,
    pub unlisted: Vec<String>,
    pub channels: Channels,
    /// How many sheets have the samples of the original's planes.
    pub sheets: u64,
    /// The number that the pixel size gave, where it was held against the original's.
    pub size: Option<u32>,
}

/// Whether a file's channels were held against the original's, in which every plane record stands for one component.
#[derive(Clone, Copy, Default)]
pub enum Channels {
    /// There were none on one side.
    #[default]
    Unasked,
    /// All of them were empty.
    Empty,
    /// Some have a name or a colour.
    Told,
    /// A plane record says other than one component.
    LeftOut,
}

pub struct Check<'a> {
    pub file: &'a [u8],
    pub plan: &'a Plan,
    pub answers: &'a Answers,
    pub original: &'a Answer,
    pub findings: Findings,
}

impl Check<'_> {
    pub fn run(&mut self) {
        self.findings.unlisted.extend(self.answers.faults.clone());
        if self.over_limit() {
            self.findings.listed.push(Listed::MapLimit);
            return;
        }
        self.open();
        self.planes();
        self.sheets();
        self.trees();
        self.channels();
        self.register();
        self.picometres();
        self.tables();
        for numbers in &self.answers.wild {
            self.same("refused summary", numbers, &[SUMMARY; 6]);
        }
    }

    /// Whether the map has too many entries here and, counted by their names, not too many there.
    fn over_limit(&self) -> bool {
        let here = matches!(self.answers.open, Some(Err(MAP)));
        here && self.file.len() > LIMIT_BYTES && self.original.open.is_ok()
    }

    fn differs(&mut self, what: String) {
        self.findings.unlisted.push(what);
    }

    fn same<T: PartialEq + std::fmt::Debug>(&mut self, what: &str, ours: &T, theirs: &T) {
        if ours != theirs {
            self.differs(format!("{what}: {ours:?}, expected {theirs:?}"));
        }
    }

    /// The number of a message. One about a name is of the map's own chunk where that cannot be read.
    fn number(&self, message: &str) -> Option<u32> {
        match number(message) {
            Some(CHUNK_NAME) if self.original.map.is_err() => Some(CHUNK),
            number => number,
        }
    }

    /// Whether both accept; where not, both have to give the same number.
    fn both<T>(&mut self, what: &str, ours: u32, theirs: &Told<T>) -> bool {
        let message = match theirs {
            Ok(_) if ours == 0 => return true,
            Ok(_) => "accepted",
            Err(message) => message,
        };
        let theirs = self.number(message);
        let packed = theirs == Some(PACKED) || message.starts_with(NO_TEN_BYTES);
        if ours == PACKED && packed {
            self.findings.listed.push(Listed::PackedRecords);
        } else if theirs != Some(ours) {
            self.differs(format!("{what}: {ours}, the original: {message}"));
        }
        false
    }

    fn open(&mut self) {
        let Some(open) = self.answers.open else {
            return;
        };
        let told = &self.original.open;
        if !self.both("open", open.err().unwrap_or(0), told) {
            return;
        }
        if let (Ok(summary), Ok(opened)) = (open, told) {
            self.summary(&summary, opened);
        }
    }

    fn summary(&mut self, s: &Summary, o: &Opened) {
        self.same("loops", &s.used().to_vec(), &o.loops);
        let sizes = [s.width, s.stride, s.height, s.components, s.bits];
        self.same("sizes", &sizes, &o.sizes);
        if let Ok(map) = &self.original.map {
            self.same("map", &s.map, map);
        }
        if self.answers.trees[2].number == PACKED && o.size.is_none() {
            self.findings.listed.push(Listed::PackedRecords);
            self.same("packed calibration", &s.calibration, &2);
            self.same("packed calibration", &floats(s), &[0; 4]);
            return;
        }
        self.same("calibration", &s.calibration, &(o.size.is_some() as u64));
        let (x, y, z) = o.size.unwrap_or((0, 0, None));
        let expected = [x as u64, y as u64, class(o), z.unwrap_or(0) as u64];
        self.same("x, y, class, z", &floats(s), &expected);
    }

    fn planes(&mut self) {
        let answers = self.answers;
        for (i, lent) in answers.planes.iter().enumerate() {
            self.samples("plane", i, lent, 0);
            self.same("border", &answers.borders[i], lent);
            let short = short(lent.number);
            self.same("plane, short buffer", &answers.short_planes[i], &short);
        }
    }

    /// A sheet has the samples of the original's plane behind its head, and is refused as that is. Its head and what it
    /// says when it is read were held against the reader's own plane (`sheets`).
    fn sheets(&mut self) {
        let answers = self.answers;
        for (i, lent) in answers.sheets.iter().enumerate() {
            if self.samples("sheet", i, lent, HEAD_BYTES) {
                self.findings.sheets += 1;
            }
            let short = short(lent.number);
            self.same("sheet, short buffer", &answers.short_sheets[i], &short);
        }
    }

    /// Holds the samples behind a head against the original's plane `i`; whether both accept.
    fn samples(&mut self, call: &str, i: usize, lent: &Lent, head: usize) -> bool {
        let what = format!("{call} {:?}", self.plan.planes[i]);
        let original = self.original;
        let told = &original.planes[i];
        if !self.both(&what, lent.number, told) {
            return false;
        }
        let theirs = told.as_deref().unwrap_or(&[]);
        let ours = lent.bytes.get(head..).unwrap_or(&[]);
        let whole = ours.len() == theirs.len() + self.plan.spare;
        if !ours.starts_with(theirs) || !whole {
            let len = self.file.len();
            self.differs(format!("{what}: other samples ({len} bytes)"));
        }
        true
    }

    fn map_read(&self) -> bool {
        self.original.map.is_ok() && self.map_number() == Some(0)
    }

    /// The number that reading the map gives: the tree that no file has tells it.
    fn map_number(&self) -> Option<u32> {
        match &self.original.trees[TREES.len() - 1] {
            Err(message) if message == "no such map entry" => Some(0),
            Err(message) => self.number(message),
            Ok(_) => None,
        }
    }

    fn trees(&mut self) {
        if self.original.map.is_err() || self.map_number() == Some(second::refusal::TAIL) {
            return;
        }
        let answers = self.answers;
        for (i, lent) in answers.trees.iter().enumerate() {
            let what = format!("tree {}", TREES[i]);
            let told = &self.original.trees[i];
            if self.both(&what, lent.number, told) {
                self.table(&what, lent, told);
            }
            let small = &answers.small_trees[i];
            self.small_tree(&what, lent, small);
        }
    }

    /// With few entries a tree is 18 or what it is with many; 18 exactly where it has more records, if it is whole.
    fn small_tree(&mut self, what: &str, full: &Lent, small: &Lent) {
        let records = full.bytes.len().div_ceil(ENTRY_BYTES);
        if full.number == 0 && records > self.plan.room {
            self.same(&format!("{what}, small table"), &small.number, &TABLE);
        } else if full.number == 0 || small.number != TABLE {
            self.same(&format!("{what}, small table"), small, full);
        }
    }

    /// The table's entries: right by the file's bytes, and of the same values as the original's tree.
    fn table(&mut self, what: &str, lent: &Lent, told: &Told<Vec<u8>>) {
        let mut table = lent.bytes.clone();
        table.resize(lent.bytes.len().div_ceil(ENTRY_BYTES) * ENTRY_BYTES, 0);
        let entries = written(&table);
        if entries.len() * ENTRY_BYTES != table.len() {
            self.differs(format!("{what}: an empty entry among the others"));
        }
        if let Some(fault) = table::fault(self.file, &entries) {
            self.differs(format!("{what}: {fault}"));
            return;
        }
        let mut out = Out::default();
        tell_level(&mut out, self.file, &root(self.file, &entries));
        if told.as_ref() != Ok(&out.0) {
            self.differs(format!("{what}: other values"));
        }
    }

    fn channels(&mut self) {
        let (Some(row), true) = (&self.answers.channels, self.map_read()) else {
            return;
        };
        if self.both("channels", row.number, &self.original.channels) {
            self.records(&row.records);
        }
        let short = self.answers.short_channels;
        self.same("channels, short row", &short, &Some(CHANNEL_ROW));
        let small = self.answers.small_channels;
        if small != Some(TABLE) {
            self.same("channels, small table", &small, &Some(row.number));
        }
    }

    /// The records of the channels, where each plane record stands for one component.
    fn records(&mut self, ours: &[Channel]) {
        let root = second::calls::channel_root(self.file, &self.plan.summary);
        if root.is_ok_and(|root| !all_single(&root)) {
            self.findings.channels = Channels::LeftOut;
            return;
        }
        let theirs = self.original.channels.as_deref().unwrap_or(&[]);
        let told = theirs.iter().any(|t| t.name.is_some() || t.color.is_some());
        self.findings.channels = if told {
            Channels::Told
        } else {
            Channels::Empty
        };
        let components = self.plan.summary.components as usize;
        let file = self.file;
        let mut both = ours.iter().zip(theirs);
        let alike = both.all(|(o, t)| same_channel(file, o, t));
        if theirs.len() != components || !alike {
            self.differs(format!("channels: {ours:?}"));
        }
    }

    fn register(&mut self) {
        let (Some(lent), true) = (&self.answers.register, self.plan.opened) else {
            return;
        };
        let frames = self.plan.summary.frames();
        let short = self.answers.short_register;
        self.same("register, short buffer", &short, &Some(BUFFER));
        if frames > MOST_FRAMES as u128 {
            self.same("register", &lent.number, &BUFFER);
            return;
        }
        if self.both("register", lent.number, &self.original.register) {
            let mut told = self.original.register.clone().unwrap_or_default();
            told.sort();
            let bytes: Vec<u8> = told.iter().flat_map(record).collect();
            let dense = told.iter().zip(0..).all(|(record, n)| record[0] == n);
            if !dense
                || lent.bytes.len() != bytes.len() + self.plan.spare
                || !lent.bytes.starts_with(&bytes)
            {
                self.differs("register: other records".to_string());
            }
        }
    }

    /// An opening with few entries is 18 exactly where one of the trees that it reads has more records.
    fn tables(&mut self) {
        let (Some(full), Some(small)) = (self.answers.open, self.answers.small_open) else {
            return;
        };
        let trees = &self.answers.trees[..3];
        let whole = full.is_ok() && matches!(trees[2].number, 0 | 4 | 11 | CHUNK_NAME);
        let records = |tree: &Lent| tree.bytes.len().div_ceil(ENTRY_BYTES);
        let fits = trees.iter().all(|tree| records(tree) <= self.plan.room);
        if whole && !fits {
            self.same("open, small table", &small, &Err(TABLE));
        } else if whole || small != Err(TABLE) {
            self.same("open, small table", &bits(small), &bits(full));
        }
    }
}

/// What a call gives with a buffer that is one byte too short.
fn short(number: u32) -> u32 {
    if number == 0 {
        BUFFER
    } else {
        number
    }
}

/// A summary that can be compared where it holds floats.
fn bits(open: Result<Summary, u32>) -> Result<String, u32> {
    open.map(|s| format!("{s:?} {:?}", floats(&s)))
}

/// x, y, class and z by their bits.
fn floats(s: &Summary) -> [u64; 4] {
    [
        s.x.to_bits() as u64,
        s.y.to_bits() as u64,
        s.class,
        s.z.to_bits() as u64,
    ]
}

/// The z class that the original's notes tell of.
fn class(o: &Opened) -> u64 {
    let noted = |word: &str| o.notes.iter().any(|note| note.contains(word));
    match o.size {
        Some((_, _, Some(_))) => 1,
        _ if noted("placeholder") => 2,
        _ if noted("too large") => 3,
        _ => 0,
    }
}

/// One record of a register from frame number, scene, t, z, state and offset.
fn record(told: &[u64; 6]) -> Vec<u8> {
    let words = told[1..5].iter().flat_map(|w| (*w as u32).to_le_bytes());
    words.chain(told[5].to_le_bytes()).collect()
}

fn same_channel(file: &[u8], ours: &Channel, theirs: &ChannelTold) -> bool {
    let name = (ours.named == 1).then(|| text(file, ours.name, ours.units));
    let rgb = [ours.red, ours.green, ours.blue].map(|c| c as u8).to_vec();
    let color = (ours.colored == 1).then_some(rgb);
    let unnamed = ours.named == 1 || (ours.name, ours.units) == (0, 0);
    name == theirs.name && color == theirs.color && unnamed
}

fn letters(scalars: &[u32]) -> String {
    scalars.iter().filter_map(|&s| char::from_u32(s)).collect()
}

fn text(file: &[u8], start: u64, units: u64) -> String {
    letters(&scalars(&units_at(file, start, units)))
}

fn tell_level(out: &mut Out, file: &[u8], level: &Level) {
    out.byte(b'{');
    out.u64(level.slots.len() as u64);
    for slot in &level.slots {
        out.bytes(letters(&slot.name).as_bytes());
        tell_value(out, file, &slot.value);
    }
}

fn tell_value(out: &mut Out, file: &[u8], value: &Value) {
    match value {
        Value::Flag(flag) => {
            out.byte(b'f');
            out.byte(*flag as u8);
        }
        Value::Whole(number) => {
            out.byte(b'w');
            out.0.extend_from_slice(&number.to_le_bytes());
        }
        Value::Double(number) => {
            out.byte(b'd');
            out.u64(number.to_bits());
        }
        Value::Text(start, units) => {
            out.byte(b't');
            out.bytes(text(file, *start, *units).as_bytes());
        }
        Value::Bytes(start, len) => {
            out.byte(b'b');
            let range = *start as usize..(*start + *len) as usize;
            out.bytes(file.get(range).unwrap_or(&[]));
        }
        Value::Level(level) => tell_level(out, file, level),
        Value::List(list) => {
            out.byte(b'[');
            out.u64(list.len() as u64);
            list.iter().for_each(|value| tell_value(out, file, value));
        }
    }
}

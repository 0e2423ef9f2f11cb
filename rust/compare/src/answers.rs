//! What a reader answers about one file, with every lent byte.

use crate::picometres::Size;
use crate::reader::Reader;
use crate::sheets::Read;
use plan::{Plan, MOST_FRAMES, TREES};
use second::sheets::HEAD_BYTES;
use second::trees::ENTRY_BYTES;
use second::{Channel, Summary};
use std::fmt;

/// What lent bytes hold before a call.
pub const FILL: u8 = 0xA5;

/// A call's number and what the lent bytes hold after it.
#[derive(Clone, PartialEq)]
pub struct Lent {
    pub number: u32,
    pub bytes: Vec<u8>,
}

/// The number and how many bytes there are: all of them would fill a report.
impl fmt::Debug for Lent {
    fn fmt(&self, f: &mut fmt::Formatter<'_>) -> fmt::Result {
        write!(f, "{} with {} bytes", self.number, self.bytes.len())
    }
}

#[derive(Clone, Debug, PartialEq)]
pub struct Row {
    pub number: u32,
    pub records: Vec<Channel>,
}

/// What the calls that take a summary make of a strange one.
#[derive(Clone, Debug, PartialEq)]
pub struct Strange {
    pub plane: Lent,
    pub sheet: Lent,
    pub tree: Lent,
    pub channels: Row,
    pub register: Lent,
    pub picometres: Size,
}

/// What a reader answers. `short` are the same calls with one byte, record or entry too few, or with few entries.
#[derive(Clone, Debug, Default, PartialEq)]
pub struct Answers {
    pub open: Option<Result<Summary, u32>>,
    pub planes: Vec<Lent>,
    pub short_planes: Vec<u32>,
    pub borders: Vec<Lent>,
    pub trees: Vec<Lent>,
    pub channels: Option<Row>,
    pub short_channels: Option<u32>,
    pub register: Option<Lent>,
    pub short_register: Option<u32>,
    pub small_open: Option<Result<Summary, u32>>,
    pub small_trees: Vec<Lent>,
    pub small_channels: Option<u32>,
    pub sheets: Vec<Lent>,
    pub short_sheets: Vec<u32>,
    /// What was written, read back.
    pub reads: Vec<Read>,
    pub short_reads: Vec<Read>,
    /// What was written, damaged and then read.
    pub damaged: Vec<Read>,
    pub picometres: Size,
    pub small_picometres: Size,
    pub wild: Vec<[u32; 6]>,
    pub strange: Vec<Strange>,
    /// Lent bytes that were touched or not cleared against the rules.
    pub faults: Vec<String>,
}

/// A summary's floats by their bits, since +0 and −0 are different answers.
fn exact(open: &Option<Result<Summary, u32>>) -> [u32; 3] {
    let floats = |s: &Summary| [s.x, s.y, s.z].map(f32::to_bits);
    open.as_ref()
        .and_then(|o| o.as_ref().ok())
        .map_or([0; 3], floats)
}

impl Answers {
    /// The calls in which other answers differ from these.
    pub fn differing(&self, other: &Answers) -> Vec<String> {
        let same = [
            ("planes", self.planes == other.planes),
            (
                "planes, short buffer",
                self.short_planes == other.short_planes,
            ),
            ("border", self.borders == other.borders),
            ("trees", self.trees == other.trees),
            ("trees, small table", self.small_trees == other.small_trees),
            ("channels", self.channels == other.channels),
            (
                "channels, short row",
                self.short_channels == other.short_channels,
            ),
            (
                "channels, small table",
                self.small_channels == other.small_channels,
            ),
            ("register", self.register == other.register),
            (
                "register, short buffer",
                self.short_register == other.short_register,
            ),
            ("refused summaries", self.wild == other.wild),
            ("strange summaries", self.strange == other.strange),
            ("lent bytes", self.faults == other.faults),
        ];
        let opens = self.same_opens(other).into_iter();
        let same = opens.chain(same).chain(self.same_sheets(other));
        let same = same.chain(self.same_picometres(other));
        let differing = same.filter(|(_, same)| !same);
        let told = |(call, _)| format!("{call}: other answers than the first reader's");
        differing.map(told).collect()
    }

    /// The openings, and whether other answers are these.
    fn same_opens(&self, other: &Answers) -> [(&'static str, bool); 2] {
        let same = |a: &Option<Result<Summary, u32>>, b| a == b && exact(a) == exact(b);
        [
            ("open", same(&self.open, &other.open)),
            (
                "open, small table",
                same(&self.small_open, &other.small_open),
            ),
        ]
    }

    /// The calls with sheets, and whether other answers are these.
    fn same_sheets(&self, other: &Answers) -> [(&'static str, bool); 5] {
        [
            ("sheets", self.sheets == other.sheets),
            (
                "sheets, short buffer",
                self.short_sheets == other.short_sheets,
            ),
            ("sheets read", self.reads == other.reads),
            (
                "sheets read, short buffer",
                self.short_reads == other.short_reads,
            ),
            ("damaged sheets read", self.damaged == other.damaged),
        ]
    }
}

/// Lent bytes that are used again for every file.
#[derive(Default)]
pub struct Scratch {
    table: Vec<u8>,
}

/// Asks one reader everything that the plan has.
pub fn asked(reader: &dyn Reader, file: &[u8], plan: &Plan, scratch: &mut Scratch) -> Answers {
    let mut asking = Asking {
        reader,
        file,
        plan,
        scratch,
        answers: Answers::default(),
    };
    asking.open();
    asking.planes();
    asking.sheets();
    asking.trees();
    asking.channels();
    asking.register();
    asking.picometres();
    asking.wild();
    asking.strange();
    asking.answers
}

/// The bytes up to the last one that is not zero.
fn used(bytes: &[u8]) -> usize {
    let set = |part: &[u8]| part.iter().fold(0, |all, byte| all | byte) != 0;
    let last = bytes.chunks(256).rposition(set);
    let end = last.map_or(0, |i| (256 * (i + 1)).min(bytes.len()));
    let zeros = bytes[..end].iter().rev().take_while(|&&byte| byte == 0);
    end - zeros.count()
}

pub struct Asking<'a> {
    pub reader: &'a dyn Reader,
    pub file: &'a [u8],
    pub plan: &'a Plan,
    scratch: &'a mut Scratch,
    pub answers: Answers,
}

impl Asking<'_> {
    /// A table of so many bytes, filled.
    fn table(&mut self, len: usize) {
        self.scratch.table.clear();
        self.scratch.table.resize(len, FILL);
    }

    /// The bytes of a table with few entries.
    pub fn small_room(&self) -> usize {
        self.plan.room * ENTRY_BYTES + self.plan.spare
    }

    fn small_table(&mut self) {
        self.table(self.small_room());
    }

    pub fn fault(&mut self, right: bool, what: &str) {
        if !right {
            self.answers.faults.push(what.to_string());
        }
    }

    /// The pixel size with a table of so many bytes, which is zero afterwards in any case; a refusal says 0.
    pub fn sized(&mut self, summary: &Summary, len: usize, call: &str) -> Size {
        self.table(len);
        let table = &mut self.scratch.table;
        let (number, picometres) = self.reader.picometres(self.file, summary, table);
        self.table_is_zero(call);
        let right = number == 0 || picometres == 0;
        self.fault(right, &format!("{call}: refused, and not 0 picometres"));
        (number, picometres)
    }

    fn table_is_zero(&mut self, call: &str) {
        let zero = self.scratch.table.iter().fold(0, |all, byte| all | byte) == 0;
        self.fault(zero, &format!("{call}: the table is not zero"));
    }

    fn open(&mut self) {
        self.table(self.plan.table);
        let open = self.reader.open(self.file, &mut self.scratch.table);
        self.table_is_zero("open");
        self.answers.open = Some(open);
        self.small_table();
        let small = self.reader.open(self.file, &mut self.scratch.table);
        self.table_is_zero("open, small table");
        self.answers.small_open = Some(small);
    }

    /// The bytes of a plane that may be there, or few.
    pub fn plane_bytes(&self) -> usize {
        let plane = self.plan.summary.attributes().plane_bytes();
        let fits = plane.filter(|&bytes| bytes <= self.file.len() as u128);
        fits.unwrap_or(16) as usize
    }

    fn planes(&mut self) {
        let needed = self.plane_bytes();
        for &at in &self.plan.planes {
            let lent = self.plane(at, needed);
            self.answers.planes.push(lent);
            let mut short = vec![FILL; needed - 1];
            let number = self
                .reader
                .plane(self.file, &self.plan.summary, at, &mut short);
            self.untouched(number, &short, 0, "plane, short buffer");
            self.answers.short_planes.push(number);
            let lent = self.border(at, needed);
            self.answers.borders.push(lent);
        }
    }

    fn plane(&mut self, at: [u64; 4], needed: usize) -> Lent {
        let mut samples = vec![FILL; needed + self.plan.spare];
        let number = self
            .reader
            .plane(self.file, &self.plan.summary, at, &mut samples);
        self.untouched(number, &samples, needed, "plane");
        Lent {
            number,
            bytes: samples,
        }
    }

    fn border(&mut self, at: [u64; 4], needed: usize) -> Lent {
        let mut samples = vec![FILL; needed + self.plan.spare];
        self.table(self.plan.table);
        let table = &mut self.scratch.table;
        let number = self.reader.read_plane(self.file, table, at, &mut samples);
        self.table_is_zero("border");
        self.untouched(number, &samples, needed, "border");
        Lent {
            number,
            bytes: samples,
        }
    }

    /// On a refusal no byte may have changed, otherwise none after those that were needed.
    pub fn untouched(&mut self, number: u32, bytes: &[u8], needed: usize, call: &str) {
        let from = if number == 0 { needed } else { 0 };
        let same = bytes.get(from..).unwrap_or(&[]).iter().all(|&b| b == FILL);
        self.fault(same, &format!("{call}: bytes were touched"));
    }

    fn trees(&mut self) {
        for name in &self.plan.names {
            self.table(self.plan.table);
            let lent = self.tree(name);
            self.answers.trees.push(lent);
            self.small_table();
            let lent = self.tree(name);
            self.answers.small_trees.push(lent);
        }
    }

    /// The table up to the last byte that is not zero; all of it has to be zero on a refusal.
    fn tree(&mut self, name: &[u8]) -> Lent {
        let table = &mut self.scratch.table;
        let number = self.reader.tree(self.file, &self.plan.summary, name, table);
        let used = used(table);
        let bytes = table[..used].to_vec();
        self.fault(number == 0 || used == 0, "tree: the table is not zero");
        Lent { number, bytes }
    }

    fn channels(&mut self) {
        let components = self.plan.summary.components as usize;
        self.table(self.plan.table);
        let row = self.row(components + 2);
        self.answers.channels = Some(row);
        let short = self.row(components - 1);
        self.answers.short_channels = Some(short.number);
        self.small_table();
        let small = self.row(components);
        self.answers.small_channels = Some(small.number);
    }

    /// Channels with the table as it is; surplus records and those of a refusal have to be empty.
    fn row(&mut self, len: usize) -> Row {
        let filled = Channel {
            named: 9,
            blue: 9,
            ..Channel::default()
        };
        let mut records = vec![filled; len];
        self.scratch.table.fill(FILL);
        let table = &mut self.scratch.table;
        let number = self
            .reader
            .channels(self.file, &self.plan.summary, table, &mut records);
        self.table_is_zero("channels");
        let components = self.plan.summary.components as usize;
        let from = if number == 0 { components } else { 0 };
        let surplus = records.get(from..).unwrap_or(&[]);
        let empty = surplus.iter().all(|&r| r == Channel::default());
        self.fault(empty, "channels: records are not zero");
        Row { number, records }
    }

    fn register(&mut self) {
        let frames = self.plan.summary.frames();
        let few = frames <= MOST_FRAMES as u128;
        let needed = if few { frames as usize * 24 } else { 24 };
        let mut bytes = vec![FILL; needed + self.plan.spare];
        let number = self
            .reader
            .register(self.file, &self.plan.summary, &mut bytes);
        self.untouched(number, &bytes, needed, "register");
        self.answers.register = Some(Lent { number, bytes });
        let mut short = vec![FILL; needed - 1];
        let number = self
            .reader
            .register(self.file, &self.plan.summary, &mut short);
        self.untouched(number, &short, 0, "register, short buffer");
        self.answers.short_register = Some(number);
    }

    /// The same calls with summaries of which nothing is expected but that a refusal leaves lent bytes as it has to.
    fn strange(&mut self) {
        for summary in &self.plan.strange {
            let mut samples = vec![FILL; 200];
            let number = self.reader.plane(self.file, summary, [0; 4], &mut samples);
            self.untouched(number, &samples, samples.len(), "plane, strange summary");
            let plane = Lent {
                number,
                bytes: samples,
            };
            let mut bytes = vec![FILL; HEAD_BYTES + 200];
            let number = self.reader.sheet(self.file, summary, [0; 4], &mut bytes);
            self.untouched(number, &bytes, bytes.len(), "sheet, strange summary");
            let sheet = Lent { number, bytes };
            let mut records = vec![FILL; 24 * 30];
            let number = self.reader.register(self.file, summary, &mut records);
            self.untouched(number, &records, records.len(), "register, strange summary");
            let register = Lent {
                number,
                bytes: records,
            };
            let (tree, channels) = self.strange_tables(summary);
            let picometres = self.sized(summary, self.plan.table, "picometres, strange summary");
            self.answers.strange.push(Strange {
                plane,
                sheet,
                tree,
                channels,
                register,
                picometres,
            });
        }
    }

    fn strange_tables(&mut self, summary: &Summary) -> (Lent, Row) {
        self.table(self.plan.table);
        let table = &mut self.scratch.table;
        let name = TREES[1].as_bytes();
        let number = self.reader.tree(self.file, summary, name, table);
        let bytes = table[..used(table)].to_vec();
        let right = number == 0 || bytes.is_empty();
        self.fault(right, "tree, strange summary: the table is not zero");
        let mut records = vec![Channel::default(); 4];
        self.table(self.plan.table);
        let table = &mut self.scratch.table;
        let row = self
            .reader
            .channels(self.file, summary, table, &mut records);
        self.table_is_zero("channels, strange summary");
        let channels = Row {
            number: row,
            records,
        };
        (Lent { number, bytes }, channels)
    }

    /// The six calls that take a summary, with summaries that are refused.
    fn wild(&mut self) {
        for summary in &self.plan.wild {
            let mut bytes = vec![FILL; 64];
            let plane = self.reader.plane(self.file, summary, [0; 4], &mut bytes);
            let register = self.reader.register(self.file, summary, &mut bytes);
            let sheet = self.reader.sheet(self.file, summary, [0; 4], &mut bytes);
            self.untouched(1, &bytes, 0, "refused summary");
            self.small_table();
            let name = TREES[0].as_bytes();
            let tree = self
                .reader
                .tree(self.file, summary, name, &mut self.scratch.table);
            self.table_is_zero("tree, refused summary");
            let mut row = [Channel::default(); 2];
            self.small_table();
            let table = &mut self.scratch.table;
            let channels = self.reader.channels(self.file, summary, table, &mut row);
            self.table_is_zero("channels, refused summary");
            let small = self.small_room();
            let (picometres, _) = self.sized(summary, small, "picometres, refused summary");
            let numbers = [plane, tree, channels, register, sheet, picometres];
            self.answers.wild.push(numbers);
        }
    }
}

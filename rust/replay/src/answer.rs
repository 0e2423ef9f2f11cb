//! What the second implementation answers: a line for each question, of the call's name, its number and a checksum of
//! every lent byte afterwards, an opening's with the numbers of its summary before them, a sheet's, where one is read,
//! with its width, height and bits as u64, and a pixel size's with its picometres as u64. A row of channels is bytes,
//! as in the C interface: as many records of seven u64 as fit, zeros behind them.

use crate::step::{numbers, Step};
use second::{Channel, Summary};

/// What lent bytes hold before a call.
const FILL: u8 = 0xA5;

/// The bytes of one channel in a lent row.
pub const CHANNEL_BYTES: usize = 56;

/// A checksum: times 1,000,003 plus each number and 1, modulo the largest prime below 2^32.
#[derive(Default)]
struct Sum(u64);

impl Sum {
    /// A number below 2^32.
    fn fold(&mut self, n: u64) {
        self.0 = (1_000_003 * self.0 + n + 1) % 4_294_967_291;
    }

    /// A number as its low and its high half.
    fn number(&mut self, n: u64) {
        self.fold(n % (1 << 32));
        self.fold(n >> 32);
    }

    fn bytes(&mut self, bytes: &[u8]) {
        bytes.iter().for_each(|&byte| self.fold(byte as u64));
    }

    fn summary(&mut self, s: &Summary) {
        let [x, y, z] = [s.x, s.y, s.z].map(|v| v.to_bits() as u64);
        let calibration = [s.calibration, x, y, s.class, z];
        let all = numbers(s).into_iter().chain(calibration);
        all.for_each(|n| self.number(n));
    }
}

/// A question's answer: the call, its number, and the checksum.
pub struct Answer {
    pub call: &'static str,
    pub number: u32,
    sum: Sum,
}

impl Answer {
    fn new(call: &'static str, number: u32, lent: &[&[u8]]) -> Answer {
        let mut sum = Sum::default();
        lent.iter().for_each(|bytes| sum.bytes(bytes));
        Answer { call, number, sum }
    }

    pub fn line(&self) -> String {
        format!("{} {} {:08x}", self.call, self.number, self.sum.0)
    }
}

/// What questions are about: the last file, and the last summary that a step said or that an opening gave.
#[derive(Default)]
pub struct State {
    file: Vec<u8>,
    summary: Summary,
}

fn lent(len: usize) -> Vec<u8> {
    vec![FILL; len]
}

impl State {
    /// The answer to a step, if that is a question.
    pub fn take(&mut self, step: &Step) -> Option<Answer> {
        match step {
            Step::Label(_) => return None,
            Step::File(bytes) => self.file = bytes.clone(),
            Step::Summary(summary) => self.summary = *summary,
            Step::Open { table } => return Some(self.open(*table)),
            Step::Plane { at, buffer } => return Some(self.plane(*at, *buffer)),
            Step::Tree { name, table } => return Some(self.tree(name, *table)),
            Step::Register { buffer } => return Some(self.register(*buffer)),
            Step::Border { at, table, buffer } => return Some(self.border(*at, *table, *buffer)),
            Step::Channels { table, buffer } => return Some(self.channels(*table, *buffer)),
            Step::Sheet { at, buffer } => return Some(self.sheet(*at, *buffer)),
            Step::ReadSheet { sheet, buffer } => return Some(read_sheet(sheet, *buffer)),
            Step::Picometres { table } => return Some(self.picometres(*table)),
        }
        None
    }

    fn open(&mut self, table: usize) -> Answer {
        let mut table = lent(table);
        let opened = second::open(&self.file, &mut table);
        self.summary = opened.unwrap_or_default();
        let mut sum = Sum::default();
        sum.summary(&self.summary);
        sum.bytes(&table);
        Answer {
            call: "open",
            number: opened.err().unwrap_or(0),
            sum,
        }
    }

    fn plane(&self, at: [u64; 4], buffer: usize) -> Answer {
        let mut samples = lent(buffer);
        let [scene, t, c, z] = at;
        let number = second::plane(&self.file, &self.summary, scene, t, c, z, &mut samples);
        Answer::new("plane", number, &[&samples])
    }

    fn sheet(&self, at: [u64; 4], buffer: usize) -> Answer {
        let mut sheet = lent(buffer);
        let [scene, t, c, z] = at;
        let number = second::sheet(&self.file, &self.summary, scene, t, c, z, &mut sheet);
        Answer::new("sheet", number, &[&sheet])
    }

    fn tree(&self, name: &[u8], table: usize) -> Answer {
        let mut table = lent(table);
        let number = second::tree(&self.file, &self.summary, name, &mut table);
        Answer::new("tree", number, &[&table])
    }

    fn register(&self, buffer: usize) -> Answer {
        let mut buffer = lent(buffer);
        let number = second::register(&self.file, &self.summary, &mut buffer);
        Answer::new("register", number, &[&buffer])
    }

    fn border(&self, at: [u64; 4], table: usize, buffer: usize) -> Answer {
        let mut table = lent(table);
        let mut samples = lent(buffer);
        let [scene, t, c, z] = at;
        let number = second::read_plane(&self.file, &mut table, scene, t, c, z, &mut samples);
        Answer::new("border", number, &[&table, &samples])
    }

    fn picometres(&self, table: usize) -> Answer {
        let mut table = lent(table);
        let (number, picometres) = second::picometres(&self.file, &self.summary, &mut table);
        Answer::new("picometres", number, &[&picometres.to_le_bytes(), &table])
    }

    fn channels(&self, table: usize, buffer: usize) -> Answer {
        let mut table = lent(table);
        let mut row = vec![Channel::default(); buffer / CHANNEL_BYTES];
        let number = second::channels(&self.file, &self.summary, &mut table, &mut row);
        let numbers = row.iter().flat_map(|c| {
            let name = [c.named, c.name, c.units];
            name.into_iter().chain([c.colored, c.red, c.green, c.blue])
        });
        let mut bytes: Vec<u8> = numbers.flat_map(u64::to_le_bytes).collect();
        bytes.resize(buffer, 0);
        Answer::new("channels", number, &[&bytes, &table])
    }
}

/// What a sheet says, all zero on a refusal, and its samples.
fn read_sheet(sheet: &[u8], buffer: usize) -> Answer {
    let mut samples = lent(buffer);
    let read = second::read_sheet(sheet, &mut samples);
    let told = read.unwrap_or_default();
    let sizes = [told.width, told.height, told.bits].map(u64::to_le_bytes);
    let number = read.err().unwrap_or(0);
    Answer::new("read", number, &[&sizes.concat(), &samples])
}

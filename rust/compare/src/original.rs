//! The original, built from its own source and run as a child process.
//!
//! Its four files are copied into a folder of their own, but for five calls as they are (`reference`); after the reader's
//! text stands one line that names a child module, through which what is private there is told. `rustc` compiles them with
//! the driver, without any other crate.

use crate::reference;
use crate::wire::{In, Out};
use second::{Axis, Loop, Range};
use std::fs;
use std::io::{self, Read, Write};
use std::path::{Path, PathBuf};
use std::process::{Child, ChildStdin, ChildStdout, Command, Stdio};

const UNCHANGED: [&str; 3] = ["calibration.rs", "guard.rs", "types.rs"];
const READER: &str = "nd2_reader.rs";
const DRIVER: [(&str, &str); 6] = [
    ("main.rs", include_str!("../driver/main.rs")),
    ("access.rs", include_str!("../driver/access.rs")),
    ("error.rs", include_str!("../driver/error.rs")),
    ("io.rs", include_str!("../driver/io.rs")),
    ("stand_ins.rs", include_str!("../driver/stand_ins.rs")),
    ("wire.rs", include_str!("../driver/wire.rs")),
];

/// What was given, or the message of a refusal.
pub type Told<T> = Result<T, String>;

/// What an opening tells; `size` has x, y and z, as bits of f32.
pub struct Opened {
    pub loops: Vec<Loop>,
    /// Width, row bytes, height, components, bits.
    pub sizes: [u64; 5],
    pub size: Option<(u32, u32, Option<u32>)>,
    pub notes: Vec<String>,
}

pub struct ChannelTold {
    pub name: Option<String>,
    pub color: Option<Vec<u8>>,
}

/// Everything that one file was asked.
pub struct Answer {
    pub open: Told<Opened>,
    pub map: Told<Range>,
    pub channels: Told<Vec<ChannelTold>>,
    pub planes: Vec<Told<Vec<u8>>>,
    pub trees: Vec<Told<Vec<u8>>>,
    /// Of each frame: number, scene, t, z, state, offset.
    pub register: Told<Vec<[u64; 6]>>,
}

pub struct Question<'a> {
    pub components: u64,
    pub most_frames: u64,
    pub planes: &'a [[u64; 4]],
    pub names: &'a [Vec<u8>],
    pub file: &'a [u8],
}

/// What went wrong with a file, with its name.
fn of_file(path: &Path) -> impl FnOnce(io::Error) -> io::Error + '_ {
    move |error| io::Error::new(error.kind(), format!("{}: {error}", path.display()))
}

/// The text of one of the original's files.
fn source(original: &Path, name: &str) -> io::Result<String> {
    let path = original.join(name);
    fs::read_to_string(&path).map_err(of_file(&path))
}

/// The reader's text: that of the reference, or the original's own.
fn reader(original: &Path, unchanged: bool) -> io::Result<String> {
    let text = source(original, READER)?;
    if unchanged {
        println!("the original, unchanged");
        return Ok(text);
    }
    let (text, changed) = reference::of(&text).map_err(io::Error::other)?;
    println!(
        "the reference: {changed} calls of the original pass the name of the chunk that they read"
    );
    Ok(text)
}

/// Writes driver and original into `folder` and compiles them; gives the program's path.
pub fn build(original: &Path, folder: &Path, unchanged: bool) -> io::Result<PathBuf> {
    fs::create_dir_all(folder)?;
    for (name, text) in DRIVER {
        fs::write(folder.join(name), text)?;
    }
    let mut text = reader(original, unchanged)?;
    for name in UNCHANGED {
        fs::write(folder.join(name), source(original, name)?)?;
    }
    text.push_str("\n#[path = \"access.rs\"]\npub mod access;\n");
    fs::write(folder.join(READER), text)?;
    let program = folder.join("original");
    let status = Command::new("rustc")
        .args(["--edition", "2021", "--cap-lints", "allow"])
        .args(["-C", "opt-level=3", "-C", "overflow-checks=on"])
        .args(["-C", "debug-assertions=on"])
        .arg("-o")
        .arg(&program)
        .arg(folder.join("main.rs"))
        .status()
        .map_err(of_file(Path::new("rustc")))?;
    if !status.success() {
        return Err(io::Error::other("the original does not compile"));
    }
    Ok(program)
}

/// The running original.
pub struct Original {
    program: PathBuf,
    child: Child,
    input: ChildStdin,
    output: ChildStdout,
}

impl Original {
    pub fn start(program: &Path) -> io::Result<Original> {
        let mut child = Command::new(program)
            .stdin(Stdio::piped())
            .stdout(Stdio::piped())
            .spawn()?;
        let input = child.stdin.take();
        let output = child.stdout.take();
        Ok(Original {
            program: program.to_path_buf(),
            child,
            input: input.ok_or_else(|| io::Error::other("no pipe"))?,
            output: output.ok_or_else(|| io::Error::other("no pipe"))?,
        })
    }

    /// Asks one file. `None` where the original broke off; it is then started anew.
    pub fn ask(&mut self, question: &Question) -> io::Result<Option<Answer>> {
        match self.exchange(question) {
            Ok(answer) if answer.is_empty() => Ok(None),
            Ok(answer) => Ok(Some(answered(&answer, question))),
            Err(_) => {
                let _ = self.child.kill();
                let _ = self.child.wait();
                *self = Original::start(&self.program.clone())?;
                Ok(None)
            }
        }
    }

    fn exchange(&mut self, question: &Question) -> io::Result<Vec<u8>> {
        let request = request(question);
        self.input
            .write_all(&(request.len() as u64).to_le_bytes())?;
        self.input.write_all(&request)?;
        self.input.flush()?;
        let mut len = [0; 8];
        self.output.read_exact(&mut len)?;
        let mut answer = vec![0; u64::from_le_bytes(len) as usize];
        self.output.read_exact(&mut answer)?;
        Ok(answer)
    }
}

impl Drop for Original {
    fn drop(&mut self) {
        let _ = self.child.kill();
        let _ = self.child.wait();
    }
}

fn request(question: &Question) -> Vec<u8> {
    let mut out = Out::default();
    out.u64(question.components);
    out.u64(question.most_frames);
    out.u64(question.planes.len() as u64);
    for index in question.planes.iter().flatten() {
        out.u64(*index);
    }
    out.u64(question.names.len() as u64);
    for name in question.names {
        out.bytes(name);
    }
    out.0.extend_from_slice(question.file);
    out.0
}

fn answered(bytes: &[u8], question: &Question) -> Answer {
    let mut input = In::new(bytes);
    let input = &mut input;
    Answer {
        open: told(input, opened),
        map: told(input, |i| Range {
            start: i.u64(),
            len: i.u64(),
        }),
        channels: told(input, |i| (0..i.u64()).map(|_| channel(i)).collect()),
        planes: question
            .planes
            .iter()
            .map(|_| told(input, |i| i.bytes()))
            .collect(),
        trees: question
            .names
            .iter()
            .map(|_| told(input, |i| i.bytes()))
            .collect(),
        register: told(input, |i| {
            let count = i.u64();
            (0..count).map(|_| [(); 6].map(|_| i.u64())).collect()
        }),
    }
}

fn told<T>(input: &mut In, given: impl FnOnce(&mut In) -> T) -> Told<T> {
    if input.byte() == 0 {
        return Ok(given(input));
    }
    Err(text(input))
}

fn text(input: &mut In) -> String {
    String::from_utf8_lossy(&input.bytes()).into_owned()
}

fn opened(input: &mut In) -> Opened {
    let count = input.u64();
    let one = |input: &mut In| Loop {
        axis: [Axis::T, Axis::Z, Axis::P][input.byte() as usize],
        count: input.u64(),
    };
    let loops = (0..count).map(|_| one(input)).collect();
    let sizes = [(); 5].map(|_| input.u64());
    let size = (input.byte() == 1).then(|| {
        let (x, y) = (input.u64() as u32, input.u64() as u32);
        let stated = input.byte() == 1;
        let z = input.u64() as u32;
        (x, y, stated.then_some(z))
    });
    let notes = input.u64();
    Opened {
        loops,
        sizes,
        size,
        notes: (0..notes).map(|_| text(input)).collect(),
    }
}

fn channel(input: &mut In) -> ChannelTold {
    let named = input.byte() == 1;
    let name = text(input);
    let colored = input.byte() == 1;
    let color = input.bytes();
    ChannelTold {
        name: named.then_some(name),
        color: colored.then_some(color),
    }
}

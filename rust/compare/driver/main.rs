//! The original, asked over a pipe: a request on stdin, its answer on stdout, each with its length before it.
//!
//! The names that the original expects from crates and modules that were not published with it stand in `stand_ins`,
//! `error` and `io`; its own files are compiled as they were written beside them.
extern crate self as byteorder;
extern crate self as flate2;
extern crate self as memmap2;

mod calibration;
mod error;
mod guard;
mod io;
mod nd2_reader;
mod stand_ins;
mod types;
mod wire;

pub use stand_ins::{read, BigEndian, LittleEndian, Mmap, ReadBytesExt};

use nd2_reader::access;
use std::io::{Read, Write};
use std::panic::{catch_unwind, AssertUnwindSafe};
use std::sync::Arc;
use wire::{In, Out};

const GIVEN: u8 = 0;
const REFUSED: u8 = 1;
const PANICKED: u8 = 2;

/// One answer: what was given, the message of a refusal, or of a panic.
fn section(out: &mut Out, answer: impl FnOnce(&mut Out) -> error::Result<()>) {
    let mut given = Out::default();
    match catch_unwind(AssertUnwindSafe(|| answer(&mut given))) {
        Ok(Ok(())) => {
            out.byte(GIVEN);
            out.0.extend_from_slice(&given.0);
        }
        Ok(Err(error)) => {
            out.byte(REFUSED);
            out.bytes(error.to_string().as_bytes());
        }
        Err(_) => {
            out.byte(PANICKED);
            out.bytes(b"panic");
        }
    }
}

/// Request: components for the channels, most frames of a register, planes (scene, t, c, z), tree names, the file.
/// Answer: open, map place, channels, each plane, each tree, register.
fn answer(request: &[u8]) -> Vec<u8> {
    let mut input = In::new(request);
    let components = input.u64() as usize;
    let most_frames = input.u64();
    let planes: Vec<[u64; 4]> = (0..input.u64())
        .map(|_| [input.u64(), input.u64(), input.u64(), input.u64()])
        .collect();
    let names: Vec<Vec<u8>> = (0..input.u64()).map(|_| input.bytes()).collect();
    let file = Arc::new(input.rest.to_vec());
    let mut out = Out::default();
    let opened = catch_unwind(AssertUnwindSafe(|| access::open(&file)));
    let reader = opened.unwrap_or_else(|_| panic!("open"));
    section(&mut out, |out| access::tell_open(out, &reader));
    section(&mut out, |out| access::tell_map_place(out, &file));
    section(&mut out, |out| {
        access::tell_channels(out, &file, components)
    });
    for at in planes {
        section(&mut out, |out| access::tell_plane(out, &reader, at));
    }
    for name in names {
        section(&mut out, |out| access::tell_tree(out, &file, &name));
    }
    section(&mut out, |out| {
        access::tell_register(out, &reader, most_frames)
    });
    out.0
}

/// Answers until the input ends. An opening that panics is answered with no bytes.
fn serve() -> std::io::Result<()> {
    let mut input = std::io::stdin().lock();
    let mut output = std::io::stdout().lock();
    loop {
        let mut len = [0; 8];
        if input.read_exact(&mut len).is_err() {
            return Ok(());
        }
        let mut request = vec![0; u64::from_le_bytes(len) as usize];
        input.read_exact(&mut request)?;
        let told = catch_unwind(AssertUnwindSafe(|| answer(&request))).unwrap_or_default();
        output.write_all(&(told.len() as u64).to_le_bytes())?;
        output.write_all(&told)?;
        output.flush()?;
    }
}

fn main() {
    std::panic::set_hook(Box::new(|_| {}));
    let server = std::thread::Builder::new()
        .stack_size(64 << 20)
        .spawn(serve);
    let served = server.map(|thread| thread.join());
    if !matches!(served, Ok(Ok(Ok(())))) {
        std::process::exit(1);
    }
}

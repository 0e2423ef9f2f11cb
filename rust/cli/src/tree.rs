//! `nd2 tree`: the tree of a chunk.

use crate::arguments::Arguments;
use crate::failure::Done;
use crate::{misnamed, open, text};
use nd2::{Entry, Value};
use std::io::{self, BufWriter, Write};
use std::os::unix::ffi::OsStringExt;

/// So many bytes of a value are printed.
const MOST_BYTES: usize = 16;

pub fn run(arguments: Arguments) -> Done {
    let [path, chunk] = arguments.all(["FILE", "CHUNK"])?;
    let mut name = chunk.into_vec();
    if !name.ends_with(b"!") {
        name.push(b'!');
    }
    open::with(&path, |file| {
        let reader = open::reader(&path, file)?;
        let place = || format!("{}: chunk {}", text::of_os(&path), text::of_bytes(&name));
        let tree = reader
            .tree(&name)
            .map_err(|refusal| misnamed::failure(place(), refusal, file, &[&name]))?;
        let mut out = BufWriter::new(io::stdout().lock());
        for entry in tree.entries() {
            print(&mut out, entry)?;
        }
        Ok(out.flush()?)
    })
}

fn print(out: &mut impl Write, entry: Entry) -> io::Result<()> {
    let name = match text::shown(&entry.name()) {
        name if name.is_empty() => "-".to_string(),
        name => name,
    };
    let indent = 2 * entry.depth();
    writeln!(out, "{:indent$}{name}{}", "", value(entry.value()))
}

fn value(value: Value) -> String {
    match value {
        Value::Level => String::new(),
        Value::Flag(flag) => format!(": flag = {flag}"),
        Value::I32(number) => format!(": i32 = {number}"),
        Value::U32(number) => format!(": u32 = {number}"),
        Value::I64(number) => format!(": i64 = {number}"),
        Value::U64(number) => format!(": u64 = {number}"),
        Value::F64(number) => format!(": f64 = {number:?}"),
        Value::Pointer(number) => format!(": pointer = {number:#x}"),
        Value::Text(letters) => format!(": text = \"{}\"", text::shown(&letters)),
        Value::Bytes(bytes) => format!(": {} bytes{}", bytes.len(), beginning(bytes)),
    }
}

fn beginning(bytes: &[u8]) -> String {
    let first = bytes.iter().take(MOST_BYTES);
    let first: Vec<String> = first.map(|byte| format!("{byte:02x}")).collect();
    let more = if bytes.len() > MOST_BYTES { " ..." } else { "" };
    match first.is_empty() {
        true => String::new(),
        false => format!(" = {}{more}", first.join(" ")),
    }
}

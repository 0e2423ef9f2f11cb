//! `map_file` hands over the bytes that were lent; its path is not looked at.

use crate::error::Result;
use crate::Mmap;
use std::cell::Cell;
use std::path::Path;

thread_local! {
    static LENT: Cell<&'static [u8]> = const { Cell::new(&[]) };
}

pub fn lend(file: &'static [u8]) {
    LENT.set(file);
}

pub fn map_file(_path: &Path) -> Result<Mmap> {
    Ok(Mmap(LENT.get()))
}

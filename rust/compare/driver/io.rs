//! `map_file` hands over the file that was lent; its path is not looked at.

use crate::error::Result;
use crate::Mmap;
use std::cell::RefCell;
use std::path::Path;
use std::sync::Arc;

thread_local! {
    static LENT: RefCell<Arc<Vec<u8>>> = RefCell::new(Arc::new(Vec::new()));
}

pub fn lend(file: &Arc<Vec<u8>>) {
    LENT.with(|lent| *lent.borrow_mut() = file.clone());
}

pub fn map_file(_path: &Path) -> Result<Mmap> {
    Ok(Mmap(LENT.with(|lent| lent.borrow().clone())))
}

//! Memory that a call asks for, however large a file says that it is.

use nd2::{File, Reader, Refusal};
use sample::parts::{self, Sizes};
use sample::{corner, Nd2};
use std::alloc::{GlobalAlloc, Layout, System};
use std::cell::Cell;
use std::fs;
use std::path::PathBuf;

/// The system's memory, with the largest piece that the thread asked for and one that it is refused.
struct Watched;

thread_local! {
    static LARGEST: Cell<usize> = const { Cell::new(0) };
    static REFUSED: Cell<usize> = const { Cell::new(usize::MAX) };
}

fn granted(size: usize) -> bool {
    LARGEST.set(LARGEST.get().max(size));
    size < REFUSED.get()
}

// SAFETY: all of it is the system's, but for what is refused.
unsafe impl GlobalAlloc for Watched {
    unsafe fn alloc(&self, layout: Layout) -> *mut u8 {
        match granted(layout.size()) {
            true => System.alloc(layout),
            false => std::ptr::null_mut(),
        }
    }

    unsafe fn alloc_zeroed(&self, layout: Layout) -> *mut u8 {
        match granted(layout.size()) {
            true => System.alloc_zeroed(layout),
            false => std::ptr::null_mut(),
        }
    }

    unsafe fn realloc(&self, start: *mut u8, layout: Layout, size: usize) -> *mut u8 {
        match granted(size) {
            true => System.realloc(start, layout, size),
            false => std::ptr::null_mut(),
        }
    }

    unsafe fn dealloc(&self, start: *mut u8, layout: Layout) {
        System.dealloc(start, layout)
    }
}

#[global_allocator]
static MEMORY: Watched = Watched;

/// An answer, and the largest piece of memory that was asked for meanwhile.
fn largest<T>(call: impl FnOnce() -> T) -> (T, usize) {
    LARGEST.set(0);
    let answer = call();
    (answer, LARGEST.get())
}

/// An answer where pieces of so many bytes and more are refused.
fn refusing<T>(size: usize, call: impl FnOnce() -> T) -> T {
    REFUSED.set(size);
    let answer = call();
    REFUSED.set(usize::MAX);
    answer
}

/// A file that is removed when the test ends.
struct Scratch(PathBuf);

impl Drop for Scratch {
    fn drop(&mut self) {
        let _ = fs::remove_file(&self.0);
    }
}

/// A file of one frame, all of it a hole, mapped.
fn hollow(sizes: Sizes) -> (Scratch, File) {
    let (width, height) = (sizes.width, sizes.height);
    let name = format!("nd2-{}-memory-{width}-{height}", std::process::id());
    let scratch = Scratch(std::env::temp_dir().join(name));
    let mut out = fs::File::create(&scratch.0).unwrap();
    corner::hollow(sizes, &mut out).unwrap();
    // SAFETY: nobody but this test knows the file, which is not written any more.
    let file = unsafe { File::map_path(&scratch.0) }.unwrap();
    (scratch, file)
}

const SMALL: usize = 1 << 20;

#[test]
fn nothing_is_asked_for_a_plane_that_is_refused() {
    let (_scratch, file) = hollow(Sizes::packed(65_537, 65_536, 1, 8));
    let reader = file.reader().unwrap();
    assert!(reader.summary().plane_bytes() <= file.len() as u64);
    for (z, refusal) in [(0, Refusal::CEILING), (1, Refusal::INDEX)] {
        let (plane, most) = largest(|| reader.plane(0, 0, 0, z));
        assert!(plane == Err(refusal) && most < SMALL, "{most}");
        let (sheet, most) = largest(|| reader.sheet(0, 0, 0, z));
        assert!(sheet == Err(refusal) && most < SMALL, "{most}");
    }
}

#[test]
fn nothing_is_asked_for_a_frame_that_is_not_there() {
    let bytes = {
        let mut file = Nd2::new();
        let sizes = Sizes::packed(1 << 12, 1 << 12, 1, 8);
        file.add(parts::ATTRIBUTES, &parts::attributes(sizes).encode());
        let loops = [(parts::TIME, parts::counted(3))];
        file.add(parts::EXPERIMENT, &parts::experiment(&loops).encode());
        file.add(&parts::frame_name(0), &vec![0; 8 + (1 << 24)]);
        file.add(&parts::frame_name(1), &[0; 100]);
        file.finish()
    };
    let reader = Reader::open(&bytes).unwrap();
    for (t, refusal) in [(1, Refusal::FRAME_SHORT), (2, Refusal::NO_FRAME)] {
        let (plane, most) = largest(|| reader.plane(0, t, 0, 0));
        assert!(plane == Err(refusal) && most < SMALL, "{most}");
    }
    let (plane, most) = largest(|| reader.plane(0, 0, 0, 0));
    assert_eq!((plane.unwrap().len(), most), (1 << 24, 1 << 24));
    let no_memory = refusing(1 << 24, || reader.plane(0, 0, 0, 0));
    assert!(no_memory == Err(Refusal::BUFFER));
    let no_memory = refusing(1 << 24, || reader.sheet(0, 0, 0, 0));
    assert!(no_memory == Err(Refusal::BUFFER));
}

/// A file of some hundred bytes that says it has so many frames.
fn frames(counts: &[u32]) -> Vec<u8> {
    let mut file = Nd2::new();
    let sizes = Sizes::packed(1, 1, 1, 8);
    file.add(parts::ATTRIBUTES, &parts::attributes(sizes).encode());
    let kinds = [parts::TIME, parts::POINTS, parts::FOCUS].into_iter();
    let loops = kinds
        .zip(counts)
        .map(|(kind, &count)| (kind, parts::counted(count)));
    let loops: Vec<_> = loops.collect();
    file.add(parts::EXPERIMENT, &parts::experiment(&loops).encode());
    file.add(&parts::frame_name(0), &parts::frame(&[7]));
    file.finish()
}

#[test]
fn a_register_takes_48_megabytes_at_most() {
    for (counts, frames_said, taken) in [
        (&[2000, 1000][..], 2_000_000, 48_000_000..=48_000_000),
        (&[2001, 1000], 2_001_000, 0..=SMALL),
        (&[20_000, 1000], 20_000_000, 0..=SMALL),
        (&[1000, 1_000_000], 1_000_000_000, 0..=SMALL),
        (&[1_000_000; 3], 1_000_000_000_000_000_000, 0..=SMALL),
    ] {
        let bytes = frames(counts);
        let reader = Reader::open(&bytes).unwrap();
        let (present, most) = largest(|| {
            let register = reader.register().unwrap();
            assert_eq!(register.len(), frames_said);
            let mut first = register.iter().take(1000);
            assert!(first.all(|frame| frame.is_present() == (frame.number == 0)));
            register.present()
        });
        assert_eq!(present, 1);
        assert!(taken.contains(&most), "{frames_said} frames: {most} bytes");
    }
}

#[test]
fn a_register_that_there_is_no_memory_for_is_25() {
    let bytes = frames(&[1000, 1000]);
    let reader = Reader::open(&bytes).unwrap();
    let register = refusing(SMALL, || reader.register().map(|register| register.len()));
    assert_eq!(register, Err(Refusal::BUFFER));
}

#[test]
fn a_file_that_there_is_no_memory_for_is_an_error() {
    let name = format!("nd2-{}-memory-read", std::process::id());
    let scratch = Scratch(std::env::temp_dir().join(name));
    fs::write(&scratch.0, vec![0; SMALL]).unwrap();
    let refused = refusing(SMALL, || File::open_path(&scratch.0).map(|file| file.len()));
    let kind = refused.unwrap_err().kind();
    assert_eq!(kind, std::io::ErrorKind::OutOfMemory);
    let (read, most) = largest(|| File::open_path(&scratch.0).unwrap());
    assert_eq!(read.len(), SMALL);
    assert!(most <= SMALL + 1, "{most}");
}

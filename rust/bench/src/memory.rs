//! How much memory a reader takes beyond what it is lent: the peak of the process, and the deepest place of the stack.

use std::ffi::{c_int, c_void};
use std::fs;
use std::io;

const STACK_BYTES: usize = 1 << 20;
const UNTOUCHED: u8 = 0xA5;
const PAGE_BYTES: usize = 4096;
/// A part of a stack that was not touched.
const PAGE: [u8; PAGE_BYTES] = [UNTOUCHED; PAGE_BYTES];
/// The C library's words of a thread's attributes, with room to spare.
const ATTRIBUTE_WORDS: usize = 16;

extern "C" {
    fn pthread_attr_init(attributes: *mut u64) -> c_int;
    fn pthread_attr_setstack(attributes: *mut u64, start: *mut c_void, len: usize) -> c_int;
    fn pthread_create(
        thread: *mut usize,
        attributes: *const u64,
        run: extern "C" fn(*mut c_void) -> *mut c_void,
        argument: *mut c_void,
    ) -> c_int;
    fn pthread_join(thread: usize, answer: *mut *mut c_void) -> c_int;
}

/// A line of /proc/self/status, in kilobytes.
fn status(name: &str) -> Option<i64> {
    let text = fs::read_to_string("/proc/self/status").ok()?;
    let line = text.lines().find_map(|line| line.strip_prefix(name))?;
    line.trim_start_matches(':')
        .split_whitespace()
        .next()?
        .parse()
        .ok()
}

/// By how many kilobytes the process grows at most while something runs; none where the system does not tell.
pub fn peak(run: impl FnOnce()) -> Option<i64> {
    fs::write("/proc/self/clear_refs", "5").ok()?;
    let before = status("VmRSS")?;
    run();
    Some((status("VmHWM")? - before).max(0))
}

extern "C" fn start(argument: *mut c_void) -> *mut c_void {
    // SAFETY: the argument is the closure that `on_stack` lends until the thread has ended.
    let run = unsafe { &mut *argument.cast::<&mut dyn FnMut()>() };
    run();
    std::ptr::null_mut()
}

/// Runs something on a stack of its own; how many bytes of it were touched.
fn on_stack(mut run: &mut dyn FnMut()) -> io::Result<usize> {
    let mut stack = vec![PAGE; STACK_BYTES / PAGE_BYTES];
    let mut attributes = [0u64; ATTRIBUTE_WORDS];
    let mut thread = 0;
    let memory: *mut c_void = stack.as_mut_ptr().cast();
    let argument: *mut c_void = (&raw mut run).cast();
    // SAFETY: stack, attributes and closure outlive the thread, which is joined before anything of them is used.
    let failed = unsafe {
        pthread_attr_init(attributes.as_mut_ptr()) != 0
            || pthread_attr_setstack(attributes.as_mut_ptr(), memory, STACK_BYTES) != 0
            || pthread_create(&mut thread, attributes.as_ptr(), start, argument) != 0
            || pthread_join(thread, std::ptr::null_mut()) != 0
    };
    if failed {
        return Err(io::Error::other("no thread on a stack of its own"));
    }
    Ok(STACK_BYTES - untouched(&stack))
}

/// How many bytes at the far end of a stack were not touched.
fn untouched(stack: &[[u8; PAGE_BYTES]]) -> usize {
    let pages = stack.iter().take_while(|&page| *page == PAGE).count();
    let last = stack.get(pages).map_or(&[][..], |page| page);
    let bytes = last.iter().take_while(|&&byte| byte == UNTOUCHED);
    pages * PAGE_BYTES + bytes.count()
}

/// How many bytes of stack something takes, beyond what a thread takes that does nothing.
pub fn stack(mut run: impl FnMut()) -> io::Result<usize> {
    let nothing = on_stack(&mut || {})?;
    Ok(on_stack(&mut run)?.saturating_sub(nothing))
}

#[cfg(test)]
mod tests {
    use super::*;
    use std::hint::black_box;

    #[test]
    fn what_a_function_takes_is_measured() {
        let taken = stack(|| {
            black_box([1u8; 100_000]);
        });
        let taken = taken.unwrap();
        // an array may be made in one place and handed over in another
        assert!((99_000..210_000).contains(&taken), "{taken}");
        assert!(stack(|| {}).unwrap() < 1_000);
    }

    #[test]
    fn the_far_end_is_counted_to_the_byte() {
        let mut stack = vec![PAGE; 3];
        assert_eq!(untouched(&stack), 3 * PAGE_BYTES);
        stack[2][0] = 0;
        assert_eq!(untouched(&stack), 2 * PAGE_BYTES);
        stack[1][7] = 0;
        assert_eq!(untouched(&stack), PAGE_BYTES + 7);
    }
}

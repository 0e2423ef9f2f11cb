//! The gather in C (`gather.c`), where a C compiler was there when this was built.

use sample::parts::Sizes;

/// Writes the samples of a component, given the rows of a frame.
pub type Gather = fn(&[u8], Sizes, u64, &mut [u8]);

#[cfg(gather)]
pub const GATHER: Option<Gather> = Some(gathered);
#[cfg(not(gather))]
pub const GATHER: Option<Gather> = None;

/// What compiled it.
pub const COMPILER: Option<&str> = option_env!("GATHER_COMPILER");

#[cfg(gather)]
extern "C" {
    fn bench_gather(
        rows: *const u8,
        stride: usize,
        width: usize,
        height: usize,
        components: usize,
        component: usize,
        bits: usize,
        samples: *mut u8,
    );
}

#[cfg(gather)]
fn gathered(rows: &[u8], sizes: Sizes, component: u64, samples: &mut [u8]) {
    let stride = sizes.stride as usize;
    let [width, height] = [sizes.width, sizes.height].map(|n| n as usize);
    let [components, component] = [sizes.components, component].map(|n| n as usize);
    let bits = sizes.bits as usize;
    assert!(component < components && width * components * bits / 8 <= stride);
    assert!(stride * height <= rows.len() && width * height * bits / 8 <= samples.len());
    // SAFETY: all that is read lies in the rows, all that is written in the samples, and these do not overlap.
    unsafe {
        bench_gather(
            rows.as_ptr(),
            stride,
            width,
            height,
            components,
            component,
            bits,
            samples.as_mut_ptr(),
        )
    }
}

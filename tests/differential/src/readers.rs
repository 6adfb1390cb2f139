//! The calls of the crate `bench`: loops over bytes, and the block reader in
//! one archive with them.

use crate::reference::byte::Frame;

/// What a loop over the bytes of a strip finds.
#[repr(C)]
#[derive(Clone, Copy, Debug, Default, PartialEq, Eq)]
pub struct Tally {
    pub good: usize,
    /// The XOR of the good bytes' values.
    pub xor: u8,
}

extern "C" {
    fn bench_read_bytes(
        pulses: *const u32,
        count: usize,
        short: u32,
        medium: u32,
        long: u32,
        noise: u32,
    ) -> Tally;

    fn bench_read_fixed(pulses: *const u32, count: usize) -> Tally;

    fn bench_read_block(
        pulses: *const u32,
        count: usize,
        from: usize,
        n: usize,
        out: *mut u8,
        room: usize,
    ) -> usize;
}

/// The bytes at 0, 20, 40 and so on, with these thresholds.
pub fn read_bytes(pulses: &[u32], [short, medium, long, noise]: [u32; 4]) -> Tally {
    // SAFETY: the pointer comes with the length of its slice.
    unsafe { bench_read_bytes(pulses.as_ptr(), pulses.len(), short, medium, long, noise) }
}

/// The same with the fixed thresholds.
pub fn read_fixed(pulses: &[u32]) -> Tally {
    // SAFETY: the pointer comes with the length of its slice.
    unsafe { bench_read_fixed(pulses.as_ptr(), pulses.len()) }
}

/// The number of payload bytes, or 0 for a refusal.
pub fn read_block(pulses: &[u32], from: usize, n: usize, out: &mut [u8]) -> usize {
    // SAFETY: each pointer comes with the length of its slice.
    unsafe {
        bench_read_block(
            pulses.as_ptr(),
            pulses.len(),
            from,
            n,
            out.as_mut_ptr(),
            out.len(),
        )
    }
}

impl Tally {
    /// The tally of a strip by what reads one byte.
    pub fn by(read: impl Fn(&Frame) -> Option<u8>, pulses: &[u32]) -> Self {
        let (frames, _) = pulses.as_chunks();
        let mut tally = Self::default();
        for frame in frames {
            if let Some(value) = read(frame) {
                tally.good += 1;
                tally.xor ^= value;
            }
        }
        tally
    }
}

//! Memory between pages that may not be touched: a call that goes past its buffer
//! ends the program.

use std::ffi::c_void;
use std::ptr;
use std::slice;

extern "C" {
    fn mmap(at: *mut c_void, len: usize, prot: i32, flags: i32, fd: i32, from: i64) -> *mut c_void;
    fn mprotect(at: *mut c_void, len: usize, prot: i32) -> i32;
    fn munmap(at: *mut c_void, len: usize) -> i32;
}

const PAGE: usize = 4096;

/// Linux's numbers for pages that may be read and written, and for memory that is
/// private and of no file.
const READ_AND_WRITE: i32 = 3;
const PRIVATE_OF_NO_FILE: i32 = 0x22;

/// Some pages, with one before them and one after them that may not be touched.
pub struct Guarded {
    first: *mut u8,
    len: usize,
}

impl Guarded {
    /// Memory for at least so many bytes.
    pub fn new(room: usize) -> Self {
        let len = room.max(1).next_multiple_of(PAGE);
        // SAFETY: new pages of which none may be touched, and then all but the outer ones.
        unsafe {
            let all = mmap(
                ptr::null_mut(),
                len + 2 * PAGE,
                0,
                PRIVATE_OF_NO_FILE,
                -1,
                0,
            );
            assert_ne!(all as isize, -1, "there is no memory");
            let first = all.cast::<u8>().add(PAGE);
            assert_eq!(mprotect(first.cast(), len, READ_AND_WRITE), 0);
            Self { first, len }
        }
    }

    /// The last bytes before the page after them, or the first ones after the page
    /// before them.
    pub fn bytes(&mut self, room: usize, at_end: bool) -> &mut [u8] {
        assert!(room <= self.len);
        let offset = if at_end { self.len - room } else { 0 };
        // SAFETY: these bytes lie within the pages, which are all 0 or were written.
        unsafe { slice::from_raw_parts_mut(self.first.add(offset), room) }
    }

    /// Pulses in the last bytes before the page after them.
    pub fn pulses(&mut self, pulses: &[u32]) -> &[u32] {
        let room = size_of_val(pulses);
        let bytes = self.bytes(room, true);
        for (place, pulse) in bytes.chunks_exact_mut(4).zip(pulses) {
            place.copy_from_slice(&pulse.to_ne_bytes());
        }
        // SAFETY: the bytes are these pulses, and pages end at a multiple of four.
        unsafe { slice::from_raw_parts(bytes.as_ptr().cast(), pulses.len()) }
    }
}

impl Drop for Guarded {
    fn drop(&mut self) {
        // SAFETY: the pages are those of `new`.
        let status = unsafe { munmap(self.first.sub(PAGE).cast(), self.len + 2 * PAGE) };
        debug_assert_eq!(status, 0);
    }
}

#[cfg(test)]
mod tests {
    use super::*;

    #[test]
    fn buffers_lie_at_either_end() {
        let mut guarded = Guarded::new(PAGE + 1);
        guarded.bytes(2 * PAGE, true).fill(7);
        guarded.bytes(5, true).fill(8);
        guarded.bytes(3, false).fill(9);
        let all = guarded.bytes(2 * PAGE, false);
        assert_eq!(all[..4], [9, 9, 9, 7]);
        assert_eq!(all[2 * PAGE - 6..], [7, 8, 8, 8, 8, 8]);
        assert_eq!(guarded.pulses(&[1, 2, u32::MAX]), [1, 2, u32::MAX]);
        assert_eq!(guarded.bytes(0, true), []);
    }
}

//! Pages of memory between two pages that nothing may touch.
use std::ffi::{c_int, c_void};
use std::ptr;

pub const PAGE: usize = 4096;

const PROT_NONE: c_int = 0;
const PROT_READ_WRITE: c_int = 3;
const MAP_PRIVATE_ANONYMOUS: c_int = 0x22;

extern "C" {
    fn mmap(
        at: *mut c_void,
        bytes: usize,
        prot: c_int,
        flags: c_int,
        fd: c_int,
        from: i64,
    ) -> *mut c_void;
    fn mprotect(at: *mut c_void, bytes: usize, prot: c_int) -> c_int;
    fn munmap(at: *mut c_void, bytes: usize) -> c_int;
}

/// Whole pages that can be read and written. A touch of the byte before them or of the byte behind
/// them ends the program.
pub struct Pages {
    start: *mut u8,
    bytes: usize,
}

impl Pages {
    pub fn new(count: usize) -> Pages {
        let bytes = count * PAGE;
        let whole = bytes + 2 * PAGE;
        let (none, flags) = (ptr::null_mut(), MAP_PRIVATE_ANONYMOUS);
        // SAFETY: a new mapping at a place that the system chooses touches no memory in use, and what
        // is made writable lies within it.
        unsafe {
            let map = mmap(none, whole, PROT_NONE, flags, -1, 0);
            assert!(map as isize != -1, "no memory for {count} pages");
            let start = map.cast::<u8>().add(PAGE);
            assert_eq!(mprotect(start.cast(), bytes, PROT_READ_WRITE), 0);
            Pages { start, bytes }
        }
    }

    pub fn start(&self) -> *mut u8 {
        self.start
    }

    pub fn bytes(&self) -> &[u8] {
        // SAFETY: the pages are mapped, zeroed by the system, and live as long as this.
        unsafe { std::slice::from_raw_parts(self.start, self.bytes) }
    }

    pub fn bytes_mut(&mut self) -> &mut [u8] {
        // SAFETY: as above, and nothing else has the pages while this is borrowed.
        unsafe { std::slice::from_raw_parts_mut(self.start, self.bytes) }
    }
}

impl Drop for Pages {
    fn drop(&mut self) {
        // SAFETY: the mapping is this one's own, and ends with it.
        unsafe { munmap(self.start.sub(PAGE).cast(), self.bytes + 2 * PAGE) };
    }
}

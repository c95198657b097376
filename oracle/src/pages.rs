//! Memory between two pages that may be neither read nor written: a step outside ends the program. The same
//! memory is seen a second time where it can only be read.

use std::ffi::{c_char, c_int, c_long, c_void};
use std::ptr::null_mut;
use std::slice::{from_raw_parts, from_raw_parts_mut};

// Linux on x86-64, as the library: the calls of its C library, and their flags.
extern "C" {
    fn memfd_create(name: *const c_char, flags: c_int) -> c_int;
    fn ftruncate(file: c_int, length: c_long) -> c_int;
    fn mmap(
        at: *mut c_void,
        length: usize,
        protection: c_int,
        flags: c_int,
        file: c_int,
        offset: c_long,
    ) -> *mut c_void;
}

const PAGE: usize = 4096;
const NONE: c_int = 0;
const READ: c_int = 1;
const WRITE: c_int = 2;
const SHARED: c_int = 1;
const PRIVATE: c_int = 2;
const FIXED: c_int = 16;
const ANONYMOUS: c_int = 32;

/// Where a buffer lies in its pages.
#[derive(Debug, Clone, Copy, PartialEq)]
pub enum Edge {
    Front,
    End,
}

/// Memory of whole pages; a buffer lies at one of its two edges.
pub struct Pages {
    /// Where it can be written.
    writable: *mut u8,
    /// The same memory, where it can only be read.
    read_only: *const u8,
    size: usize,
}

impl Pages {
    /// Pages for so many bytes; they are never given back.
    pub fn new(bytes: usize) -> Self {
        let size = bytes.div_ceil(PAGE) * PAGE;
        // SAFETY: a new file of this size, which nothing else knows.
        unsafe {
            let file = memfd_create(c"pages".as_ptr(), 0);
            assert!(file >= 0 && ftruncate(file, size as c_long) == 0, "no memory file");
            let writable = between_guards(file, size, READ | WRITE);
            Pages { writable, read_only: between_guards(file, size, READ), size }
        }
    }

    fn offset(&self, edge: Edge, bytes: usize) -> usize {
        assert!(bytes <= self.size);
        match edge {
            Edge::Front => 0,
            Edge::End => self.size - bytes,
        }
    }

    pub fn bytes(&mut self, edge: Edge, count: usize) -> &mut [u8] {
        let offset = self.offset(edge, count);
        // SAFETY: they lie in the pages, as `offset` asserts, and are lent as the pages are.
        unsafe { from_raw_parts_mut(self.writable.add(offset), count) }
    }

    pub fn numbers(&mut self, edge: Edge, count: usize) -> &mut [u32] {
        let offset = self.offset(edge, size_of::<u32>() * count);
        // SAFETY: the same, and aligned: pages start and end at a multiple of four.
        unsafe { from_raw_parts_mut(self.writable.add(offset).cast(), count) }
    }

    /// The bytes where they can only be read.
    pub fn read_only(&self, edge: Edge, count: usize) -> &[u8] {
        let offset = self.offset(edge, count);
        // SAFETY: they lie in the pages, as `offset` asserts, and `bytes` cannot be called while they are lent.
        unsafe { from_raw_parts(self.read_only.add(offset), count) }
    }
}

/// The memory of a file with a page on either side that may not be touched.
///
/// # Safety
///
/// The file is a memory file of this size, a number of whole pages.
unsafe fn between_guards(file: c_int, size: usize, protection: c_int) -> *mut u8 {
    // SAFETY: new memory that nothing else knows, and within it the file's.
    unsafe {
        let around = mmap(null_mut(), size + 2 * PAGE, NONE, PRIVATE | ANONYMOUS, -1, 0);
        let inside = around.wrapping_byte_add(PAGE);
        assert!(mmap(inside, size, protection, SHARED | FIXED, file, 0) == inside, "no memory");
        inside.cast()
    }
}

//! The reader alone, as crate `bench_reader` has it for C and Rust.

/// How many globals and how many lines after the first were read; or a refusal and its line.
#[repr(C)]
pub struct ReadNumbers {
    pub refusal: usize,
    pub line: usize,
    pub globals: usize,
    pub lines: usize,
}

extern "C" {
    pub fn serduzhap_read(text: *const u8, text_len: usize, work: *mut u32, work_len: usize) -> ReadNumbers;
}

/// Reads a tree text into a work buffer.
pub fn read(text: &[u8], work: &mut [u32]) -> ReadNumbers {
    // SAFETY: the call takes any bytes and any buffer, and touches nothing outside them; see crates/bench_reader.
    unsafe { serduzhap_read(text.as_ptr(), text.len(), work.as_mut_ptr(), work.len()) }
}

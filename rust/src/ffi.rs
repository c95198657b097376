//! The calls as include/serduzhap.h has them, the numbers of their answers, and each call over slices: the
//! only `unsafe` code of this crate.
//!
//! This is for those who want an answer's numbers themselves, or the calls' addresses. The safe functions
//! here write every number of an answer; what one means is in the header and in docs/FORMAT.md.
//!
//! ```
//! use serduzhap::ffi::{self, ACCEPTED};
//!
//! let mut answer = [u32::MAX; 7];
//! ffi::check(b"tree\t0\t0\n", &mut [0; serduzhap::WORK], &mut answer);
//! assert_eq!(answer, [ACCEPTED, 0, 0, 0, 0, 0, 0]);
//! ```

use crate::RECORD;

/// `check`: the text is a tree of which the rule holds.
pub const ACCEPTED: u32 = 100;
/// `report`, `message`: with the number of records or bytes that were written.
pub const WRITTEN: u32 = 101;
/// `name`: with the offset and the length of a part of the text.
pub const PART: u32 = 102;

/// The text has over 65,536 bytes; with line 0.
pub const TEXT_TOO_LONG: u32 = 1;
/// The work buffer has under 16,384 numbers; with line 0.
pub const WORK_TOO_SHORT: u32 = 2;
/// The text ends and a line is due; 3 to 7 come with the line's number, from 1.
pub const LINE_MISSING: u32 = 3;
/// A line after the last one that was due.
pub const LINE_LEFT: u32 = 4;
/// Unknown word, wrong fields, bad name or number, no LF.
pub const MALFORMED: u32 = 5;
/// Well-formed, not due here.
pub const NOT_DUE: u32 = 6;
/// Over 4,096 lines, depth 64 or 16 names.
pub const OVER_LIMIT: u32 = 7;

/// `report`: the output is too short; with the number of faults.
pub const OUTPUT_TOO_SHORT: u32 = 16;
/// `message`: there is no fault i.
pub const NO_SUCH_FAULT: u32 = 17;
/// `message`: the message is longer than the output.
pub const MESSAGE_TOO_LONG: u32 = 18;

/// The answer of `check`: its number and a line, or the record of the first fault.
pub type CheckAnswer = [u32; RECORD];
/// The answer of `report`: its number, and a line or a count.
pub type ReportAnswer = [u32; 2];
/// The answer of `message`: its number, and a line or a count.
pub type MessageAnswer = [u32; 2];
/// The answer of `name`: its number, an offset and a length.
pub type NameAnswer = [u32; 3];
/// The answer of `version`: major, minor, patch.
pub type VersionAnswer = [u32; 3];

// Each takes pointers that are valid for their counts and aligned, and do not overlap.
extern "C" {
    /// Checks a tree text.
    pub fn serduzhap_check(text: *const u8, text_len: u64, work: *mut u32, work_len: u64, answer: *mut CheckAnswer);

    /// Writes the records of all faults.
    pub fn serduzhap_report(
        text: *const u8,
        text_len: u64,
        work: *mut u32,
        work_len: u64,
        out: *mut u32,
        out_len: u64,
        answer: *mut ReportAnswer,
    );

    /// Writes the message of fault i, from 0.
    pub fn serduzhap_message(
        text: *const u8,
        text_len: u64,
        work: *mut u32,
        work_len: u64,
        i: u64,
        out: *mut u8,
        out_len: u64,
        answer: *mut MessageAnswer,
    );

    /// Tells where in the text the name of fault i stands.
    pub fn serduzhap_name(
        text: *const u8,
        text_len: u64,
        work: *mut u32,
        work_len: u64,
        i: u64,
        answer: *mut NameAnswer,
    );

    /// Tells the version of the library that is linked.
    pub fn serduzhap_version(answer: *mut VersionAnswer);
}

// Of slices the pointers are valid and aligned, and those that are written overlap no other. The calls take any bytes,
// any contents and any lengths, and touch nothing else: include/serduzhap.h says so, and it is proved.

/// Checks a tree text.
pub fn check(text: &[u8], work: &mut [u32], answer: &mut CheckAnswer) {
    // SAFETY: slices and an array, see above.
    unsafe { serduzhap_check(text.as_ptr(), len(text), work.as_mut_ptr(), len(work), answer) }
}

/// Writes the records of all faults.
pub fn report(text: &[u8], work: &mut [u32], out: &mut [u32], answer: &mut ReportAnswer) {
    let (text_at, work_at, out_at) = (text.as_ptr(), work.as_mut_ptr(), out.as_mut_ptr());
    // SAFETY: slices and an array, see above.
    unsafe { serduzhap_report(text_at, len(text), work_at, len(work), out_at, len(out), answer) }
}

/// Writes the message of fault i, from 0.
pub fn message(text: &[u8], work: &mut [u32], i: u64, out: &mut [u8], answer: &mut MessageAnswer) {
    let (text_at, work_at, out_at) = (text.as_ptr(), work.as_mut_ptr(), out.as_mut_ptr());
    // SAFETY: slices and an array, see above.
    unsafe { serduzhap_message(text_at, len(text), work_at, len(work), i, out_at, len(out), answer) }
}

/// Tells where in the text the name of fault i stands.
pub fn name(text: &[u8], work: &mut [u32], i: u64, answer: &mut NameAnswer) {
    // SAFETY: slices and an array, see above.
    unsafe { serduzhap_name(text.as_ptr(), len(text), work.as_mut_ptr(), len(work), i, answer) }
}

/// Tells the version of the library that is linked.
pub fn version(answer: &mut VersionAnswer) {
    // SAFETY: an array, see above.
    unsafe { serduzhap_version(answer) }
}

/// A count as the calls take it: 64 bits on every target.
fn len<T>(slice: &[T]) -> u64 {
    slice.len() as u64
}

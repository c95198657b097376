//! Serduzhap for Rust: a name check with a proof, over slices. A tree text and a work buffer go in, and an
//! enum comes out. docs/FORMAT.md of the repository says what a tree text is and what is answered.
//!
//! ```
//! use serduzhap::{check, report, Check, Kind, LONGEST_REPORT, WORK};
//!
//! // the script `prnt(1)`
//! let text = b"tree\t0\t1\nexpr\t0\t7\ncall\t0\t7\t1\nvar\t0\t4\tprnt\nlit\t5\t6\n";
//! let mut work = [0; WORK];
//! let Check::Faulty(first) = check(text, &mut work) else { panic!("not faulty") };
//! assert_eq!((first.kind, first.start, first.end), (Kind::UndefinedFunction, 0, 7));
//!
//! // all faults at once, and their messages from the records
//! let mut out = [0; LONGEST_REPORT];
//! for record in report(text, &mut work, &mut out)? {
//!     let message = record.message(text).expect("a record of this text");
//!     assert_eq!(message.to_string(), "Undefined function: prnt");
//! }
//! # Ok::<(), serduzhap::NoReport>(())
//! ```
//!
//! Any slices will do, of any contents and lengths: a buffer that is too short is answered with a refusal.
//! No function here panics or allocates, and none keeps anything between calls. What a caller has to see to
//! is the stack: a call takes up to [`STACK`] bytes of it, on x86-64. The buffers of the example, 64 and 112
//! kilobytes, are on the stack as well; on a board they would be statics.
//!
//! A number that is not documented never becomes [`Check::Accepted`], nor a report, a message or a name: it
//! comes as a refusal for the reason [`Reason::Undocumented`]. The library that the documents are of gives
//! none; one that does is of another version, or another library.

#![no_std]
#![deny(missing_docs, unsafe_code)]

mod answers;
#[allow(unsafe_code)]
pub mod ffi;
mod record;

pub use answers::{Check, NoMessage, NoReport, Reason, Refusal};
pub use record::{Kind, Message, Part, Record, Records};

/// The version of the header that this crate is for: major, minor, patch.
pub const VERSION: (u32, u32, u32) = (1, 0, 2);

/// The numbers of a work buffer, at least.
pub const WORK: usize = 16_384;
/// The numbers of a record.
pub const RECORD: usize = 7;
/// No text has more faults.
pub const MOST_FAULTS: usize = 4096;
/// An output of so many numbers holds every report.
pub const LONGEST_REPORT: usize = MOST_FAULTS * RECORD;
/// The bytes of a text, at most: a longer one is refused.
pub const LONGEST_TEXT: usize = 65_536;
/// The bytes of a name, at most.
pub const LONGEST_NAME: usize = 63;
/// The bytes of a message, at most.
pub const LONGEST_MESSAGE: usize = 183;
/// The bytes of stack that any call takes at most, on x86-64.
pub const STACK: usize = 30_720;

/// Checks a tree text: accepts it, refuses it, or answers with its first fault.
///
/// ```
/// use serduzhap::{check, Check, Reason, WORK};
///
/// let mut work = [0; WORK];
/// assert_eq!(check(b"tree\t0\t0\n", &mut work), Check::Accepted);
///
/// let Check::Refused(refusal) = check(b"tree\t0\t01\n", &mut work) else { panic!("not refused") };
/// assert_eq!((refusal.reason, refusal.line), (Reason::Malformed, 1));
/// ```
pub fn check(text: &[u8], work: &mut [u32]) -> Check {
    let mut answer = [0; RECORD];
    ffi::check(text, work, &mut answer);
    Check::from(answer)
}

/// Writes the records of all faults to the front of `out`, and answers with them. Without faults there is an
/// empty report.
///
/// ```
/// use serduzhap::{report, NoReport, WORK};
///
/// // the script `y`, with room for a record, and with one number less
/// let text = b"tree\t0\t1\nexpr\t0\t1\nvar\t0\t1\ty\n";
/// let (mut work, mut out) = ([0; WORK], [0; 7]);
/// assert_eq!(report(text, &mut work, &mut out)?.len(), 1);
/// let short = report(text, &mut work, &mut out[..6]);
/// assert_eq!(short.err(), Some(NoReport::OutputTooShort { faults: 1 }));
/// # Ok::<(), NoReport>(())
/// ```
///
/// # Errors
///
/// The text is refused, or the output is too short: then it is as it was.
pub fn report<'o>(text: &[u8], work: &mut [u32], out: &'o mut [u32]) -> Result<Records<'o>, NoReport> {
    let mut answer = [0; 2];
    ffi::report(text, work, out, &mut answer);
    let count = answers::count(answer)?;
    Ok(Records::of(out, count).ok_or(Refusal::undocumented(answer[0]))?)
}

/// Writes the message of fault `i` to the front of `out`, and answers with it. Faults are counted from 0, in
/// the order of [`report`].
///
/// Each call does the whole check again: for the messages of many faults take [`report`] once, and
/// [`Record::message`] of each record.
///
/// ```
/// use serduzhap::{message, NoMessage, LONGEST_MESSAGE, WORK};
///
/// let text = b"tree\t0\t1\nexpr\t0\t1\nvar\t0\t1\ty\n";
/// let (mut work, mut out) = ([0; WORK], [0; LONGEST_MESSAGE]);
/// assert_eq!(message(text, &mut work, 0, &mut out), Ok("Undefined variable: y"));
/// assert_eq!(message(text, &mut work, 1, &mut out), Err(NoMessage::NoSuchFault));
/// ```
///
/// # Errors
///
/// The text is refused, there is no fault `i`, or its message is longer than the output, which is as it was.
pub fn message<'o>(text: &[u8], work: &mut [u32], i: usize, out: &'o mut [u8]) -> Result<&'o str, NoMessage> {
    let mut answer = [0; 2];
    ffi::message(text, work, i as u64, out, &mut answer);
    let len = answers::len(answer)?;
    let words = out.get(..len).and_then(|words| core::str::from_utf8(words).ok());
    Ok(words.ok_or(Refusal::undocumented(answer[0]))?)
}

/// The name of fault `i`, as a part of the text. It is empty where the fault has none, which is an
/// [`Kind::InvalidTarget`], where there is no fault `i`, and where the text is refused.
///
/// ```
/// use serduzhap::{name, WORK};
///
/// let text = b"tree\t0\t1\nexpr\t0\t1\nvar\t0\t1\ty\n";
/// assert_eq!(name(text, &mut [0; WORK], 0), b"y");
/// assert_eq!(name(text, &mut [0; WORK], 1), b"");
/// ```
#[must_use]
pub fn name<'t>(text: &'t [u8], work: &mut [u32], i: usize) -> &'t [u8] {
    let mut answer = [0; 3];
    ffi::name(text, work, i as u64, &mut answer);
    match answer {
        [ffi::PART, offset, len] => Part { offset, len }.of(text).unwrap_or_default(),
        _ => &[],
    }
}

/// The version of the library that is linked: major, minor, patch. The first has to be that of [`VERSION`].
///
/// ```
/// assert_eq!(serduzhap::version().0, serduzhap::VERSION.0);
/// ```
#[must_use]
pub fn version() -> (u32, u32, u32) {
    let mut answer = [0; 3];
    ffi::version(&mut answer);
    answer.into()
}

//! The record of a fault: its kind, its span, and the parts of the text that are its names. A message is
//! built from it.

use crate::{LONGEST_NAME, RECORD};
use core::fmt::{self, Display, Formatter};
use core::iter::FusedIterator;
use core::slice::ChunksExact;

/// The kind of a fault, by its number in docs/FORMAT.md.
#[repr(u32)]
#[derive(Debug, Clone, Copy, PartialEq, Eq, Hash)]
pub enum Kind {
    /// A read of a name that nothing binds.
    UndefinedVariable = 8,
    /// A call of a name that nothing binds.
    UndefinedFunction = 9,
    /// A lambda that captures a name that nothing binds.
    UndefinedCapture = 10,
    /// A read of a name that its def binds, before it is assigned.
    UnboundVariable = 11,
    /// A call of a name that its def binds, before it is assigned.
    UnboundFunction = 12,
    /// A lambda that captures a name that its def binds, before it is assigned.
    UnboundCapture = 13,
    /// A target that cannot be assigned to. It has no name.
    InvalidTarget = 14,
    /// A method whose first parameter is not `self`.
    MethodWithoutSelf = 15,
}

impl Kind {
    /// All kinds, in the order of their numbers.
    pub const ALL: [Kind; 8] = [
        Kind::UndefinedVariable,
        Kind::UndefinedFunction,
        Kind::UndefinedCapture,
        Kind::UnboundVariable,
        Kind::UnboundFunction,
        Kind::UnboundCapture,
        Kind::InvalidTarget,
        Kind::MethodWithoutSelf,
    ];

    /// The number of the kind, 8 to 15.
    #[must_use]
    pub const fn number(self) -> u32 {
        self as u32
    }

    /// The kind of a number; none where it is not 8 to 15.
    #[must_use]
    pub fn of(number: u32) -> Option<Kind> {
        Kind::ALL.into_iter().find(|kind| kind.number() == number)
    }

    /// The words of its message: before the name, after it, and after the class name.
    const fn words(self) -> [&'static str; 3] {
        match self {
            Kind::UndefinedVariable => ["Undefined variable: ", "", ""],
            Kind::UndefinedFunction => ["Undefined function: ", "", ""],
            Kind::UndefinedCapture => ["Undefined variable '", "' captured by lambda", ""],
            Kind::UnboundVariable => ["Unbound local variable: ", "", ""],
            Kind::UnboundFunction => ["Unbound local function: ", "", ""],
            Kind::UnboundCapture => ["Unbound local variable '", "' captured by lambda", ""],
            Kind::InvalidTarget => ["Invalid assignment target: cannot assign to literal, call, or expression", "", ""],
            Kind::MethodWithoutSelf => ["Method '", "' in class '", "' must have 'self' as first parameter"],
        }
    }
}

/// A part of the text. That of an absent name is empty, at offset 0.
#[derive(Debug, Clone, Copy, PartialEq, Eq, Hash, Default)]
pub struct Part {
    /// Where it starts, in bytes from 0.
    pub offset: u32,
    /// How many bytes it has.
    pub len: u32,
}

impl Part {
    /// The bytes of the part; none where it does not lie in this text.
    ///
    /// ```
    /// use serduzhap::Part;
    ///
    /// assert_eq!(Part { offset: 4, len: 2 }.of(b"oven.py"), Some(&b".p"[..]));
    /// assert_eq!(Part { offset: 4, len: 4 }.of(b"oven.py"), None);
    /// ```
    #[must_use]
    pub fn of(self, text: &[u8]) -> Option<&[u8]> {
        let (offset, len) = (usize::try_from(self.offset).ok()?, usize::try_from(self.len).ok()?);
        text.get(offset..)?.get(..len)
    }

    /// The name that stands there.
    fn name(self, text: &[u8]) -> Option<&str> {
        self.of(text).filter(|name| name.len() <= LONGEST_NAME).and_then(|name| core::str::from_utf8(name).ok())
    }
}

/// A fault, as docs/FORMAT.md has its record.
#[derive(Debug, Clone, Copy, PartialEq, Eq, Hash)]
pub struct Record {
    /// What is wrong.
    pub kind: Kind,
    /// Where its span starts in the script, as the tree text has it.
    pub start: u32,
    /// Where its span ends in the script, as the tree text has it.
    pub end: u32,
    /// The name, of a method for [`Kind::MethodWithoutSelf`]. Absent for [`Kind::InvalidTarget`].
    pub name: Part,
    /// The class name. Absent for all but [`Kind::MethodWithoutSelf`].
    pub class: Part,
}

impl Record {
    /// The record of seven numbers; none where the first is not the number of a kind.
    #[must_use]
    pub fn of(numbers: [u32; RECORD]) -> Option<Record> {
        let [kind, start, end, name, name_len, class, class_len] = numbers;
        let (name, class) = (Part { offset: name, len: name_len }, Part { offset: class, len: class_len });
        Some(Record { kind: Kind::of(kind)?, start, end, name, class })
    }

    /// The message of the fault, to be displayed: the words that [`message`](crate::message) writes, with no
    /// call of the library. None where the names do not stand in this text: it is not the one that was
    /// checked.
    #[must_use]
    pub fn message<'t>(&self, text: &'t [u8]) -> Option<Message<'t>> {
        Some(Message { kind: self.kind, name: self.name.name(text)?, class: self.class.name(text)? })
    }
}

/// The message of a fault; [`Record::message`] builds it.
#[derive(Debug, Clone, Copy, PartialEq, Eq)]
pub struct Message<'t> {
    kind: Kind,
    name: &'t str,
    class: &'t str,
}

impl Display for Message<'_> {
    fn fmt(&self, to: &mut Formatter) -> fmt::Result {
        let [before, between, after] = self.kind.words();
        for part in [before, self.name, between, self.class, after] {
            to.write_str(part)?;
        }
        Ok(())
    }
}

/// The records of a report, in order.
#[derive(Debug, Clone)]
pub struct Records<'o> {
    numbers: ChunksExact<'o, u32>,
}

impl<'o> Records<'o> {
    /// The first records of an output; none where so many do not stand there.
    pub(crate) fn of(out: &'o [u32], count: usize) -> Option<Self> {
        let records = Records { numbers: out.get(..count.checked_mul(RECORD)?)?.chunks_exact(RECORD) };
        (records.clone().count() == count).then_some(records)
    }
}

impl Iterator for Records<'_> {
    type Item = Record;

    fn next(&mut self) -> Option<Record> {
        Record::of(self.numbers.next()?.try_into().ok()?)
    }

    fn size_hint(&self) -> (usize, Option<usize>) {
        self.numbers.size_hint()
    }
}

// That all of its numbers are records was looked at when it was made.
impl ExactSizeIterator for Records<'_> {}

impl FusedIterator for Records<'_> {}

#[cfg(test)]
mod tests {
    use super::*;

    #[test]
    fn a_kind_has_its_number() {
        for (kind, number) in Kind::ALL.into_iter().zip(8..) {
            assert_eq!((kind.number(), Kind::of(number)), (number, Some(kind)));
        }
        assert_eq!([0, 7, 16, 100, u32::MAX].map(Kind::of), [None; 5]);
    }

    #[test]
    fn parts_outside_are_none() {
        let text = b"abc";
        for (offset, len) in [(0, 4), (3, 1), (4, 0), (1, u32::MAX), (u32::MAX, 1), (u32::MAX, u32::MAX)] {
            assert_eq!(Part { offset, len }.of(text), None);
        }
        assert_eq!(Part { offset: 3, len: 0 }.of(text), Some(&b""[..]));
        assert_eq!(Part::default().of(b""), Some(&b""[..]));
    }

    #[test]
    fn no_message_from_another_text() {
        let record = Record::of([15, 0, 1, 2, 3, 4, 5]).expect("a record");
        assert!(record.message(b"0123456789").is_some());
        assert!(record.message(b"01234567").is_none());
        assert!(record.message(b"01\xff3456789").is_none());
        assert!(Record::of([8, 0, 1, 0, 64, 0, 0]).expect("a record").message(&[b'a'; 64]).is_none());
    }

    #[test]
    fn no_records_where_one_is_none() {
        let mut out = [8; 3 * RECORD];
        assert_eq!(Records::of(&out, 3).map(|records| records.len()), Some(3));
        assert!(Records::of(&out, 4).is_none());
        assert!(Records::of(&out, usize::MAX).is_none());
        out[RECORD] = 7;
        assert!(Records::of(&out, 3).is_none());
        assert_eq!(Records::of(&out, 1).map(Iterator::count), Some(1));
        assert_eq!(Records::of(&out, 0).map(Iterator::count), Some(0));
    }
}

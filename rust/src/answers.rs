//! What the calls answer, as enums: from the numbers of an answer, of which those that are not documented
//! become refusals.

use crate::ffi::{self, CheckAnswer, MessageAnswer, ReportAnswer};
use crate::record::Record;
use core::error::Error;
use core::fmt::{self, Display, Formatter};

/// What [`check`](crate::check) answers.
#[must_use]
#[derive(Debug, Clone, Copy, PartialEq, Eq)]
pub enum Check {
    /// The text is a tree of which the rule holds.
    Accepted,
    /// The first fault.
    Faulty(Record),
    /// The text is no tree, or it could not be read.
    Refused(Refusal),
}

impl From<CheckAnswer> for Check {
    /// What the numbers of an answer say.
    fn from(answer: CheckAnswer) -> Self {
        match (answer, Record::of(answer)) {
            ([ffi::ACCEPTED, ..], _) => Check::Accepted,
            (_, Some(record)) => Check::Faulty(record),
            ([number, line, ..], None) => Check::Refused(Refusal::of(number, line)),
        }
    }
}

/// Why and where a text is refused.
#[derive(Debug, Clone, Copy, PartialEq, Eq, Hash)]
pub struct Refusal {
    /// Why.
    pub reason: Reason,
    /// The line, from 1; 0 where the reason is not one of a line.
    pub line: u32,
}

impl Refusal {
    /// The refusal of a number: any that is not 1 to 7 is not documented.
    fn of(number: u32, line: u32) -> Self {
        let reason = match number {
            ffi::TEXT_TOO_LONG => Reason::TextTooLong,
            ffi::WORK_TOO_SHORT => Reason::WorkTooShort,
            ffi::LINE_MISSING => Reason::LineMissing,
            ffi::LINE_LEFT => Reason::LineLeft,
            ffi::MALFORMED => Reason::Malformed,
            ffi::NOT_DUE => Reason::NotDue,
            ffi::OVER_LIMIT => Reason::OverLimit,
            _ => return Refusal::undocumented(number),
        };
        Refusal { reason, line }
    }

    /// What becomes of an answer that is not documented.
    pub(crate) fn undocumented(number: u32) -> Self {
        Refusal { reason: Reason::Undocumented(number), line: 0 }
    }
}

/// In words, with the number and, where there is one, the line.
impl Display for Refusal {
    fn fmt(&self, to: &mut Formatter) -> fmt::Result {
        if self.line != 0 {
            write!(to, "line {}: ", self.line)?;
        }
        write!(to, "{} ({})", self.reason, self.reason.number())
    }
}

impl Error for Refusal {}

/// Why a text is refused, in the order of docs/FORMAT.md.
#[derive(Debug, Clone, Copy, PartialEq, Eq, Hash)]
pub enum Reason {
    /// 1: the text has over 65,536 bytes.
    TextTooLong,
    /// 2: the work buffer has under 16,384 numbers.
    WorkTooShort,
    /// 3: the text ends, and a line is due.
    LineMissing,
    /// 4: a line after the last one that was due.
    LineLeft,
    /// 5: unknown word, wrong fields, bad name or number, no LF.
    Malformed,
    /// 6: a well-formed line that is not due here.
    NotDue,
    /// 7: over 4,096 lines, depth 64 or 16 names.
    OverLimit,
    /// None of these: the library answered what the documents do not have, with this number first. It is not
    /// the library that they are of.
    Undocumented(u32),
}

impl Reason {
    /// The number of the refusal.
    #[must_use]
    pub const fn number(self) -> u32 {
        match self {
            Reason::TextTooLong => ffi::TEXT_TOO_LONG,
            Reason::WorkTooShort => ffi::WORK_TOO_SHORT,
            Reason::LineMissing => ffi::LINE_MISSING,
            Reason::LineLeft => ffi::LINE_LEFT,
            Reason::Malformed => ffi::MALFORMED,
            Reason::NotDue => ffi::NOT_DUE,
            Reason::OverLimit => ffi::OVER_LIMIT,
            Reason::Undocumented(number) => number,
        }
    }
}

/// In words.
impl Display for Reason {
    fn fmt(&self, to: &mut Formatter) -> fmt::Result {
        to.write_str(match self {
            Reason::TextTooLong => "the text has over 65,536 bytes",
            Reason::WorkTooShort => "the work buffer has under 16,384 numbers",
            Reason::LineMissing => "the text ends, and a line is due",
            Reason::LineLeft => "a line after the last one that was due",
            Reason::Malformed => "unknown word, wrong fields, bad name or number, or no line end",
            Reason::NotDue => "a line that is not due here",
            Reason::OverLimit => "over 4,096 lines, depth 64 or 16 names",
            Reason::Undocumented(_) => "an unexpected answer",
        })
    }
}

/// Why there is no report.
#[derive(Debug, Clone, Copy, PartialEq, Eq, Hash)]
pub enum NoReport {
    /// The text is refused.
    Refused(Refusal),
    /// 16: the output has under [`RECORD`](crate::RECORD) numbers for each of so many faults.
    OutputTooShort {
        /// The number of faults.
        faults: usize,
    },
}

impl From<Refusal> for NoReport {
    fn from(refusal: Refusal) -> Self {
        NoReport::Refused(refusal)
    }
}

impl Display for NoReport {
    fn fmt(&self, to: &mut Formatter) -> fmt::Result {
        match self {
            NoReport::Refused(refusal) => refusal.fmt(to),
            NoReport::OutputTooShort { faults } => write!(to, "{faults} faults, and no room for them (16)"),
        }
    }
}

impl Error for NoReport {}

/// Why there is no message.
#[derive(Debug, Clone, Copy, PartialEq, Eq, Hash)]
pub enum NoMessage {
    /// The text is refused.
    Refused(Refusal),
    /// 17: there is no such fault.
    NoSuchFault,
    /// 18: the message is longer than the output.
    TooLong,
}

impl From<Refusal> for NoMessage {
    fn from(refusal: Refusal) -> Self {
        NoMessage::Refused(refusal)
    }
}

impl Display for NoMessage {
    fn fmt(&self, to: &mut Formatter) -> fmt::Result {
        match self {
            NoMessage::Refused(refusal) => refusal.fmt(to),
            NoMessage::NoSuchFault => to.write_str("no such fault (17)"),
            NoMessage::TooLong => to.write_str("the message is longer than the output (18)"),
        }
    }
}

impl Error for NoMessage {}

/// How many records an answer of `report` says are written.
pub(crate) fn count(answer: ReportAnswer) -> Result<usize, NoReport> {
    match answer {
        [ffi::WRITTEN, count] => Ok(count as usize),
        [ffi::OUTPUT_TOO_SHORT, faults] => Err(NoReport::OutputTooShort { faults: faults as usize }),
        [number, line] => Err(Refusal::of(number, line).into()),
    }
}

/// How many bytes an answer of `message` says are written.
pub(crate) fn len(answer: MessageAnswer) -> Result<usize, NoMessage> {
    match answer {
        [ffi::WRITTEN, len] => Ok(len as usize),
        [ffi::NO_SUCH_FAULT, _] => Err(NoMessage::NoSuchFault),
        [ffi::MESSAGE_TOO_LONG, _] => Err(NoMessage::TooLong),
        [number, line] => Err(Refusal::of(number, line).into()),
    }
}

#[cfg(test)]
mod tests {
    use super::*;
    use crate::record::Kind;

    /// The numbers that come, those beside them, and some far away.
    fn numbers() -> impl Iterator<Item = u32> {
        (0..1000).chain([1 << 16, 1 << 31, u32::MAX])
    }

    #[test]
    fn only_100_is_accepted() {
        for number in numbers() {
            let check = Check::from([number, 3, 4, 5, 1, 6, 1]);
            assert_eq!(check == Check::Accepted, number == 100, "{number}");
            assert_eq!(matches!(check, Check::Faulty(_)), (8..=15).contains(&number), "{number}");
        }
    }

    #[test]
    fn what_is_not_documented_is_refused() {
        for number in numbers().filter(|number| !(1..=15).contains(number) && *number != 100) {
            let refusal = Refusal { reason: Reason::Undocumented(number), line: 0 };
            assert_eq!(Check::from([number, 3, 0, 0, 0, 0, 0]), Check::Refused(refusal));
            assert_eq!(refusal.reason.number(), number);
        }
        for number in numbers().filter(|number| !(1..=7).contains(number)) {
            let refusal = Refusal { reason: Reason::Undocumented(number), line: 0 };
            if ![16, 101].contains(&number) {
                assert_eq!(count([number, 1]), Err(NoReport::Refused(refusal)));
            }
            if ![17, 18, 101].contains(&number) {
                assert_eq!(len([number, 1]), Err(NoMessage::Refused(refusal)));
            }
        }
    }

    #[test]
    fn refusals_keep_number_and_line() {
        for number in 1..=7 {
            let Check::Refused(refusal) = Check::from([number, 9, 0, 0, 0, 0, 0]) else { panic!("{number}") };
            assert_eq!((refusal.reason.number(), refusal.line), (number, 9));
            assert_eq!(count([number, 9]), Err(NoReport::Refused(refusal)));
            assert_eq!(len([number, 9]), Err(NoMessage::Refused(refusal)));
        }
    }

    #[test]
    fn a_fault_keeps_its_record() {
        let Check::Faulty(record) = Check::from([15, 1, 2, 3, 4, 5, 6]) else { panic!("not faulty") };
        assert_eq!((record.kind, record.start, record.end), (Kind::MethodWithoutSelf, 1, 2));
        assert_eq!((record.name.offset, record.name.len), (3, 4));
        assert_eq!((record.class.offset, record.class.len), (5, 6));
    }

    #[test]
    fn counts_come_with_their_numbers() {
        assert_eq!(count([101, 5]), Ok(5));
        assert_eq!(count([16, 5]), Err(NoReport::OutputTooShort { faults: 5 }));
        assert_eq!(len([101, 5]), Ok(5));
        assert_eq!(len([17, 0]), Err(NoMessage::NoSuchFault));
        assert_eq!(len([18, 0]), Err(NoMessage::TooLong));
    }
}

//! The constants of this crate are those of include/serduzhap.h, and its version is the header's.

use serduzhap::ffi::{self, CheckAnswer, MessageAnswer, NameAnswer, ReportAnswer, VersionAnswer};
use serduzhap::{Kind, VERSION};
use std::collections::BTreeMap;
use std::mem::size_of;

const HEADER: &str = include_str!("../../include/serduzhap.h");

/// Each number that the header defines, by its name.
fn defined() -> BTreeMap<&'static str, u64> {
    let numbers = HEADER.lines().filter_map(|line| {
        let mut words = line.strip_prefix("#define SERDUZHAP_")?.split_whitespace();
        Some((words.next()?, words.next()?.parse().ok()?))
    });
    numbers.collect()
}

/// How many numbers an answer has.
fn numbers<Answer>() -> u64 {
    (size_of::<Answer>() / size_of::<u32>()) as u64
}

/// The header's numbers as the crate has them; where something stands in an answer or a record is not among
/// them.
fn here() -> BTreeMap<&'static str, u64> {
    let sizes = [
        ("WORK", serduzhap::WORK),
        ("RECORD", serduzhap::RECORD),
        ("MOST_FAULTS", serduzhap::MOST_FAULTS),
        ("LONGEST_REPORT", serduzhap::LONGEST_REPORT),
        ("LONGEST_TEXT", serduzhap::LONGEST_TEXT),
        ("LONGEST_NAME", serduzhap::LONGEST_NAME),
        ("LONGEST_MESSAGE", serduzhap::LONGEST_MESSAGE),
        ("STACK", serduzhap::STACK),
    ];
    let answers = [
        ("CHECK_ANSWER", numbers::<CheckAnswer>()),
        ("REPORT_ANSWER", numbers::<ReportAnswer>()),
        ("MESSAGE_ANSWER", numbers::<MessageAnswer>()),
        ("NAME_ANSWER", numbers::<NameAnswer>()),
        ("VERSION_ANSWER", numbers::<VersionAnswer>()),
    ];
    let first_numbers = [
        ("VERSION_MAJOR", VERSION.0),
        ("VERSION_MINOR", VERSION.1),
        ("VERSION_PATCH", VERSION.2),
        ("ACCEPTED", ffi::ACCEPTED),
        ("WRITTEN", ffi::WRITTEN),
        ("PART", ffi::PART),
        ("TEXT_TOO_LONG", ffi::TEXT_TOO_LONG),
        ("WORK_TOO_SHORT", ffi::WORK_TOO_SHORT),
        ("LINE_MISSING", ffi::LINE_MISSING),
        ("LINE_LEFT", ffi::LINE_LEFT),
        ("MALFORMED", ffi::MALFORMED),
        ("NOT_DUE", ffi::NOT_DUE),
        ("OVER_LIMIT", ffi::OVER_LIMIT),
        ("UNDEFINED_VARIABLE", Kind::UndefinedVariable.number()),
        ("UNDEFINED_FUNCTION", Kind::UndefinedFunction.number()),
        ("UNDEFINED_CAPTURE", Kind::UndefinedCapture.number()),
        ("UNBOUND_VARIABLE", Kind::UnboundVariable.number()),
        ("UNBOUND_FUNCTION", Kind::UnboundFunction.number()),
        ("UNBOUND_CAPTURE", Kind::UnboundCapture.number()),
        ("INVALID_TARGET", Kind::InvalidTarget.number()),
        ("METHOD_WITHOUT_SELF", Kind::MethodWithoutSelf.number()),
        ("OUTPUT_TOO_SHORT", ffi::OUTPUT_TOO_SHORT),
        ("NO_SUCH_FAULT", ffi::NO_SUCH_FAULT),
        ("MESSAGE_TOO_LONG", ffi::MESSAGE_TOO_LONG),
    ];
    let sizes = sizes.map(|(name, size)| (name, size as u64));
    let first_numbers = first_numbers.map(|(name, number)| (name, u64::from(number)));
    sizes.into_iter().chain(answers).chain(first_numbers).collect()
}

#[test]
fn the_same_numbers() {
    let mut defined = defined();
    defined.retain(|name, _| !name.starts_with("AT_"));
    assert_eq!(here(), defined);
}

#[test]
fn the_crate_has_the_version() {
    let (major, minor, patch) = VERSION;
    assert_eq!(env!("CARGO_PKG_VERSION"), format!("{major}.{minor}.{patch}"));
}

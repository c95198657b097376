//! The calls over the texts of docs/FORMAT.md: an example of each kind, of each refusal, of each buffer that
//! is too short.

use serduzhap::{check, message, name, report, version};
use serduzhap::{Check, Kind, NoMessage, NoReport, Reason, Record, Refusal};
use serduzhap::{LONGEST_MESSAGE, LONGEST_NAME, LONGEST_REPORT, LONGEST_TEXT, RECORD, VERSION, WORK};

/// A text from lines with blanks for tabs.
fn text(lines: &str) -> Vec<u8> {
    lines.lines().map(|line| line.trim().replace(' ', "\t") + "\n").collect::<String>().into_bytes()
}

/// The script `y`.
fn y() -> Vec<u8> {
    text("tree 0 1\n expr 0 1\n var 0 1 y")
}

/// The examples of the table of faults, in its order, each with its message.
fn eight() -> [(Vec<u8>, &'static str); 8] {
    let in_def = |lines| text(&format!("tree 0 1\n def 0 9 f 2\n{lines}\n assign 6 9\n lit 8 9\n var 6 7 x"));
    [
        (y(), "Undefined variable: y"),
        (text("tree 0 1\n expr 0 3\n call 0 3 0\n var 0 1 y"), "Undefined function: y"),
        (text("tree 0 1\n expr 0 9\n lambda 0 9\n var 8 9 y"), "Undefined variable 'y' captured by lambda"),
        (in_def("expr 0 1\n var 0 1 x"), "Unbound local variable: x"),
        (in_def("expr 0 3\n call 0 3 0\n var 0 1 x"), "Unbound local function: x"),
        (in_def("expr 0 3\n lambda 0 9\n var 8 9 x"), "Unbound local variable 'x' captured by lambda"),
        (
            text("tree 0 1\n assign 0 5\n lit 4 5\n lit 0 1"),
            "Invalid assignment target: cannot assign to literal, call, or expression",
        ),
        (
            text("tree 0 1\n class 0 9 C 1 0\n method m 0"),
            "Method 'm' in class 'C' must have 'self' as first parameter",
        ),
    ]
}

/// The records of a text that is not refused.
fn records(text: &[u8]) -> Vec<Record> {
    let mut out = vec![0; LONGEST_REPORT];
    report(text, &mut [0; WORK], &mut out).expect("a report").collect()
}

fn refused(reason: Reason, line: u32) -> Refusal {
    Refusal { reason, line }
}

#[test]
fn each_kind_has_its_message() {
    let mut out = [0; LONGEST_MESSAGE];
    for ((text, expected), kind) in eight().into_iter().zip(Kind::ALL) {
        let Check::Faulty(first) = check(&text, &mut [0; WORK]) else { panic!("{expected}") };
        assert_eq!((first.kind, records(&text)), (kind, vec![first]));
        assert_eq!(first.message(&text).expect("its text").to_string(), expected);
        assert_eq!(message(&text, &mut [0; WORK], 0, &mut out), Ok(expected));
        assert_eq!(Some(name(&text, &mut [0; WORK], 0)), first.name.of(&text));
        assert_eq!(name(&text, &mut [0; WORK], 0).is_empty(), kind == Kind::InvalidTarget);
    }
}

#[test]
fn the_longest_message_fits() {
    let [class, method] = ["C", "m"].map(|letter| letter.repeat(LONGEST_NAME));
    let text = text(&format!("tree 0 1\n class 0 9 {class} 1 0\n method {method} 0"));
    let mut out = [0; LONGEST_MESSAGE];
    let built = records(&text)[0].message(&text).expect("its text").to_string();
    assert_eq!(built.len(), LONGEST_MESSAGE);
    assert_eq!(message(&text, &mut [0; WORK], 0, &mut out), Ok(&built[..]));
}

#[test]
fn an_accepted_text_has_no_fault() {
    let text = text("tree 1 1\n global y\n expr 0 1\n var 0 1 y");
    assert_eq!(check(&text, &mut [0; WORK]), Check::Accepted);
    assert_eq!(records(&text), []);
    assert_eq!(report(&text, &mut [0; WORK], &mut []).map(Iterator::count), Ok(0));
    assert_eq!(message(&text, &mut [0; WORK], 0, &mut [0; 9]), Err(NoMessage::NoSuchFault));
    assert_eq!(name(&text, &mut [0; WORK], 0), b"");
}

#[test]
fn each_refusal_has_its_reason() {
    let parameters = " p".repeat(17);
    let refusals = [
        (vec![b'a'; LONGEST_TEXT + 1], refused(Reason::TextTooLong, 0)),
        (Vec::new(), refused(Reason::LineMissing, 1)),
        (text("tree 0 0\n x"), refused(Reason::LineLeft, 2)),
        (text("tree 0 01"), refused(Reason::Malformed, 1)),
        (text("tree 0 1\n lit 0 1"), refused(Reason::NotDue, 2)),
        (text(&format!("tree 0 1\n def 0 1 f 0{parameters}")), refused(Reason::OverLimit, 2)),
    ];
    for (text, refusal) in refusals {
        assert_eq!(check(&text, &mut [0; WORK]), Check::Refused(refusal));
        assert_eq!(report(&text, &mut [0; WORK], &mut [0; 9]).err(), Some(NoReport::Refused(refusal)));
        assert_eq!(message(&text, &mut [0; WORK], 0, &mut [0; 9]), Err(NoMessage::Refused(refusal)));
        assert_eq!(name(&text, &mut [0; WORK], 0), b"");
    }
}

#[test]
fn a_short_buffer_is_told() {
    let (text, short) = (y(), refused(Reason::WorkTooShort, 0));
    for len in [0, 1, WORK - 1] {
        assert_eq!(check(&text, &mut vec![0; len]), Check::Refused(short));
        assert_eq!(report(&text, &mut vec![0; len], &mut [0; RECORD]).err(), Some(NoReport::Refused(short)));
        assert_eq!(message(&text, &mut vec![0; len], 0, &mut [0; 21]), Err(NoMessage::Refused(short)));
        assert_eq!(name(&text, &mut vec![0; len], 0), b"");
    }
    let mut out = [9; RECORD - 1];
    assert_eq!(report(&text, &mut [0; WORK], &mut out).err(), Some(NoReport::OutputTooShort { faults: 1 }));
    assert_eq!(out, [9; RECORD - 1]);
    let mut out = [9; 20];
    assert_eq!(message(&text, &mut [0; WORK], 0, &mut out), Err(NoMessage::TooLong));
    assert_eq!(out, [9; 20]);
    assert_eq!(message(&text, &mut [0; WORK], usize::MAX, &mut out), Err(NoMessage::NoSuchFault));
}

#[test]
fn refusals_in_words() {
    assert_eq!(refused(Reason::TextTooLong, 0).to_string(), "the text has over 65,536 bytes (1)");
    assert_eq!(refused(Reason::NotDue, 2).to_string(), "line 2: a line that is not due here (6)");
    assert_eq!(refused(Reason::Undocumented(0), 0).to_string(), "an unexpected answer (0)");
}

#[test]
fn the_library_has_the_version() {
    assert_eq!(version(), VERSION);
}

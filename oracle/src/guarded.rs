//! Damaged texts through every call of the built library, with each buffer and the answer between two pages
//! that no one may touch and the text where it cannot be written: once at the front of the pages and once at
//! their end, with unlike contents before.
//!
//! Nothing may crash, change what it should leave, or depend on what a buffer held. Every number of an answer
//! has to be written, and to be 0 where the answer does not use it. The calls have to agree with one another.
//! With short buffers the answers have to be those that long ones give, by the order of refusals in
//! docs/FORMAT.md; and these have to be the plain parser's and the Rust original's.

use crate::compare::{Compared, Comparison};
use crate::damage::damaged;
use crate::numbers::Numbers;
use crate::pages::{Edge, Pages};
use crate::random_tree::random_tree;
use original::tree_text::tree_text;
use serduzhap::ffi::{self, CheckAnswer, MessageAnswer, NameAnswer, ReportAnswer};
use serduzhap::ffi::{ACCEPTED, PART, WRITTEN};
use serduzhap::ffi::{LINE_MISSING, OVER_LIMIT, TEXT_TOO_LONG, WORK_TOO_SHORT};
use serduzhap::ffi::{MESSAGE_TOO_LONG, NO_SUCH_FAULT, OUTPUT_TOO_SHORT};
use serduzhap::{Kind, Record, LONGEST_REPORT, LONGEST_TEXT, RECORD, WORK};

/// Damaged texts of each tree.
const DAMAGES: usize = 16;

/// Where a damaged text is cut: beyond the limit, so that too long ones are tried, too.
const CUT: usize = 70_000;

/// What the calls answer on one text, each number and byte.
#[derive(Debug, PartialEq)]
struct Answers {
    check: CheckAnswer,
    report: ReportAnswer,
    records: Vec<u32>,
    message: MessageAnswer,
    words: Vec<u8>,
    name: NameAnswer,
}

/// The lengths of the buffers, and the fault that is asked for.
#[derive(Debug, Clone, Copy)]
struct Room {
    work: usize,
    out: usize,
    bytes: usize,
    i: u64,
}

/// Room for every answer.
const LONG: Room = Room { work: WORK, out: LONGEST_REPORT, bytes: 256, i: 0 };

/// How the buffers lie and what they hold before each call.
#[derive(Clone, Copy)]
struct Before {
    edge: Edge,
    byte: u8,
    /// What each number of an answer holds: never 0, so that one which is not written shows.
    poison: u32,
    /// A work buffer holds what the call before left there.
    work_kept: bool,
}

impl Before {
    fn number(self) -> u32 {
        u32::from_ne_bytes([self.byte; 4])
    }

    fn work(self, pages: &mut Pages, count: usize) -> &mut [u32] {
        let work = pages.numbers(self.edge, count);
        if !self.work_kept {
            work.fill(self.number());
        }
        work
    }

    fn numbers(self, pages: &mut Pages, count: usize) -> &mut [u32] {
        let numbers = pages.numbers(self.edge, count);
        numbers.fill(self.number());
        numbers
    }

    fn bytes(self, pages: &mut Pages, count: usize) -> &mut [u8] {
        let bytes = pages.bytes(self.edge, count);
        bytes.fill(self.byte);
        bytes
    }

    /// The answer that a call writes to poisoned numbers between the guards.
    fn answer<const N: usize>(self, pages: &mut Pages, call: impl FnOnce(&mut [u32; N])) -> Compared<[u32; N]> {
        let numbers = pages.numbers(self.edge, N);
        numbers.fill(self.poison);
        let answer: &mut [u32; N] = numbers.try_into().expect("so many numbers");
        call(answer);
        if unused(answer).iter().any(|&number| number != 0) {
            return Err(format!("an unused number is not 0: {answer:?}"));
        }
        Ok(*answer)
    }
}

/// The buffers and the answer of the calls, each on pages of its own.
struct Buffers {
    text: Pages,
    work: Pages,
    out: Pages,
    bytes: Pages,
    answer: Pages,
}

impl Buffers {
    fn new() -> Self {
        Buffers {
            text: Pages::new(CUT),
            work: Pages::new(4 * 20_000),
            out: Pages::new(4 * 30_000),
            bytes: Pages::new(1000),
            answer: Pages::new(4 * RECORD),
        }
    }

    /// All calls over a text; an error where one changed what it should leave.
    fn answers(&mut self, text: &[u8], room: Room, before: Before) -> Compared<Answers> {
        self.text.bytes(before.edge, text.len()).copy_from_slice(text);
        let text = self.text.read_only(before.edge, text.len());
        let answer = &mut self.answer;
        let work = before.work(&mut self.work, room.work);
        let check = before.answer(answer, |answer| ffi::check(text, work, answer))?;

        let out = before.numbers(&mut self.out, room.out);
        let work = before.work(&mut self.work, room.work);
        let report = before.answer(answer, |answer| ffi::report(text, work, out, answer))?;
        let records = written(out, RECORD * count(report), before.number());
        let records = records.map_err(|what| format!("report {report:?}: {what}"))?;

        let bytes = before.bytes(&mut self.bytes, room.bytes);
        let work = before.work(&mut self.work, room.work);
        let message = before.answer(answer, |answer| ffi::message(text, work, room.i, bytes, answer))?;
        let words = written(bytes, count(message), before.byte);
        let words = words.map_err(|what| format!("message {message:?}: {what}"))?;

        let work = before.work(&mut self.work, room.work);
        let name = before.answer(answer, |answer| ffi::name(text, work, room.i, answer))?;
        Ok(Answers { check, report, records, message, words, name })
    }
}

/// How many records or bytes an answer says were written.
fn count([number, count]: [u32; 2]) -> usize {
    if number == WRITTEN {
        count as usize
    } else {
        0
    }
}

/// The numbers of an answer that it does not use.
fn unused(answer: &[u32]) -> &[u32] {
    const UNNAMED: u32 = Kind::InvalidTarget.number();
    const FIRST_FAULT: u32 = Kind::UndefinedVariable.number();
    const WITH_NAME: u32 = Kind::UnboundCapture.number();
    match answer[0] {
        ACCEPTED | NO_SUCH_FAULT | MESSAGE_TOO_LONG | TEXT_TOO_LONG | WORK_TOO_SHORT => &answer[1..],
        WRITTEN | OUTPUT_TOO_SHORT | LINE_MISSING..=OVER_LIMIT => &answer[2..],
        UNNAMED => &answer[3..],
        FIRST_FAULT..=WITH_NAME => &answer[5..],
        _ => &[],
    }
}

/// The front of an output buffer, which a call has written. The rest has to be what was there before.
fn written<T: Copy + PartialEq>(buffer: &[T], count: usize, before: T) -> Compared<Vec<T>> {
    let front = buffer.get(..count).ok_or("more than fits")?;
    if buffer[count..].iter().any(|&part| part != before) {
        return Err(format!("the output was changed past {count}"));
    }
    Ok(front.to_vec())
}

/// Whether the calls agree, with long buffers: what check and the records of the report say has to be what the
/// others answer.
fn agree(text: &[u8], answers: &Answers, i: u64) -> bool {
    let [number, line, ..] = answers.check;
    if (TEXT_TOO_LONG..=OVER_LIMIT).contains(&number) {
        let refused = [number, line];
        return (answers.report, answers.message, answers.name) == (refused, refused, [PART, 0, 0]);
    }
    let whole = |record: &[u32]| record.try_into().expect("a whole record");
    let records: Vec<CheckAnswer> = answers.records.chunks(RECORD).map(whole).collect();
    let fault = records.get(i as usize).copied().and_then(Record::of);
    let built = fault.and_then(|record| record.message(text)).map(|message| message.to_string());
    let words = built.unwrap_or_default().into_bytes();
    let first = records.first().copied().unwrap_or([ACCEPTED, 0, 0, 0, 0, 0, 0]);
    let report = [WRITTEN, records.len() as u32];
    let message = fault.map_or([NO_SUCH_FAULT, 0], |_| [WRITTEN, words.len() as u32]);
    let name = fault.map_or([PART, 0, 0], |record| [PART, record.name.offset, record.name.len]);
    *answers == Answers { check: first, report, records: answers.records.clone(), message, words, name }
}

/// The answers with these buffers, from those with long ones and the same i.
fn expected(text: &[u8], room: Room, long: Answers) -> Answers {
    let mut answers = long;
    if room.work < WORK && text.len() <= LONGEST_TEXT {
        answers.check = [WORK_TOO_SHORT, 0, 0, 0, 0, 0, 0];
        answers.report = [WORK_TOO_SHORT, 0];
        answers.message = [WORK_TOO_SHORT, 0];
        answers.name = [PART, 0, 0];
    }
    if room.out < RECORD * count(answers.report) {
        answers.report[0] = OUTPUT_TOO_SHORT;
    }
    if room.bytes < count(answers.message) {
        answers.message = [MESSAGE_TOO_LONG, 0];
    }
    answers.records.truncate(RECORD * count(answers.report));
    answers.words.truncate(count(answers.message));
    answers
}

/// Lengths around what so many faults and a message of this length need.
fn some_room(rng: &mut Numbers, faults: usize, message: usize, i: u64) -> Room {
    let need = RECORD * faults;
    Room {
        work: if rng.one_in(12) { rng.pick(&[0, 1, WORK - 1, WORK + 1, 20_000]) } else { WORK },
        out: rng.pick(&[0, need.saturating_sub(1), need, need + 1, need + RECORD, need + 100]),
        bytes: rng.pick(&[0, message.saturating_sub(1), message, message, message + 1, 256]),
        i,
    }
}

/// Damaged texts, their buffers and what they are compared with.
struct Guarded<'a> {
    rng: Numbers,
    buffers: Buffers,
    comparison: &'a mut Comparison,
}

impl Guarded<'_> {
    /// One text through all calls, with long buffers and short ones; then against the plain parser and the
    /// original.
    fn compare_text(&mut self, text: &[u8]) -> Compared {
        self.comparison.tally.texts += 1;
        self.compare_buffers(text)?;
        let Some(tree) = self.comparison.read_by_both(text)? else { return Ok(()) };
        let faults = self.comparison.faults(text)?;
        self.comparison.compare_first(text, &tree, &faults).map(drop)
    }

    /// The same answers whatever the buffers held, and with short ones what is expected from the long ones.
    fn compare_buffers(&mut self, text: &[u8]) -> Compared {
        let (rng, buffers) = (&mut self.rng, &mut self.buffers);
        let ones = Before { edge: Edge::Front, byte: 255, poison: u32::MAX, work_kept: false };
        let zeros = Before { edge: Edge::End, byte: 0, poison: 0xa5a5_a5a5, work_kept: rng.one_in(2) };
        let faults = count(buffers.answers(text, LONG, ones)?.report);
        let some_i = [0, 0, faults / 2, faults.saturating_sub(1), faults, faults + 1, usize::MAX];
        let i = rng.pick(&some_i) as u64;
        let long = buffers.answers(text, Room { i, ..LONG }, zeros)?;
        if !agree(text, &long, i) {
            return Err(format!("fault {i}: the calls do not agree: {long:?}"));
        }
        let room = some_room(rng, faults, count(long.message), i);
        let due = expected(text, room, long);
        let (one, other) = (buffers.answers(text, room, ones)?, buffers.answers(text, room, zeros)?);
        if one != other || one != due {
            return Err(format!("{room:?}: {due:?}\n{one:?}\n{other:?}"));
        }
        Ok(())
    }
}

/// At least so many damaged texts, some of each random tree.
pub fn compare_damaged(comparison: &mut Comparison, count: u64, seed: u64) -> Compared {
    let mut guarded = Guarded { rng: Numbers::new(seed), buffers: Buffers::new(), comparison };
    while guarded.comparison.tally.texts < count {
        guarded.comparison.tally.trees += 1;
        let (globals, body) = random_tree(&mut guarded.rng);
        let whole = tree_text(&globals, &body).expect("names of the pools").into_bytes();
        for _ in 0..DAMAGES {
            let mut text = damaged(&mut guarded.rng, &whole);
            text.truncate(CUT);
            let compared = guarded.compare_text(&text);
            compared.map_err(|what| format!("{what}\n{}", text.escape_ascii()))?;
        }
    }
    Ok(())
}

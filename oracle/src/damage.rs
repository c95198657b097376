//! Texts that are almost tree texts: cut, with bytes, fields and lines changed, put in, taken out, doubled
//! and swapped.

use crate::numbers::Numbers;

/// Fields at the edges of what a name or a number is, and past them.
const FIELDS: [&[u8]; 26] = [
    b"",
    b"0",
    b"00",
    b"01",
    b"1",
    b"2",
    b"3",
    b"-1",
    b"+1",
    b" 1",
    b"1 ",
    b"4096",
    b"4097",
    b"9999",
    b"4294967295",
    b"4294967296",
    b"42949672950",
    b"18446744073709551616",
    b"self",
    b"a",
    b"1a",
    b"a-",
    b"\xc3\xa9",
    b"a\0",
    b"print",
    b"abcdefghijklmnopqrstuvwxyzABCDEFGHIJKLMNOPQRSTUVWXYZ_0123456789ab",
];

/// All words of lines, and two that are none.
const WORDS: [&str; 31] = [
    "tree", "global", "break", "continue", "pass", "def", "assign", "if", "elif", "while", "for", "return", "expr",
    "class", "method", "attr", "lit", "var", "un", "bin", "index", "call", "get", "list", "tuple", "set", "treeset",
    "dict", "lambda", "Pass", "va",
];

/// Bytes that mean something in a text, and some that never stand in one.
const BYTES: &[u8] = b"\t\t\n\n\r \x000019azAZ_-+\x7f\x80\xc3\xff\"\\'";

/// The text with one to three damages; once in a while none, or bytes that never were a text.
pub fn damaged(rng: &mut Numbers, text: &[u8]) -> Vec<u8> {
    if rng.one_in(64) {
        return (0..rng.below(200)).map(|_| any_byte(rng)).collect();
    }
    let mut text = text.to_vec();
    for _ in 0..rng.pick(&[1, 1, 1, 1, 2, 3, 0]) {
        damage(rng, &mut text);
    }
    text
}

fn any_byte(rng: &mut Numbers) -> u8 {
    if rng.one_in(2) {
        rng.pick(BYTES)
    } else {
        rng.bits() as u8
    }
}

/// One damage: a cut, a byte, a line or a field.
fn damage(rng: &mut Numbers, text: &mut Vec<u8>) {
    let at = rng.below(text.len() + 1);
    let inside = at < text.len();
    match rng.below(9) {
        0 => text.truncate(at),
        1 if inside => text[at] = rng.pick(BYTES),
        2 if inside => text[at] = rng.bits() as u8,
        3 => text.insert(at, rng.pick(BYTES)),
        4 if inside => drop(text.remove(at)),
        5 | 6 => damage_lines(rng, text),
        _ => damage_field(rng, text, at),
    }
}

/// Doubles, drops or swaps lines, or takes all from one on away.
fn damage_lines(rng: &mut Numbers, text: &mut Vec<u8>) {
    let mut lines: Vec<&[u8]> = text.split_inclusive(|&b| b == b'\n').collect();
    if lines.is_empty() {
        return;
    }
    let (one, other) = (rng.below(lines.len()), rng.below(lines.len()));
    match rng.below(4) {
        0 => lines.insert(other, lines[one]),
        1 => drop(lines.remove(one)),
        2 => lines.swap(one, other),
        _ => lines.truncate(one),
    }
    *text = lines.concat();
}

/// Changes, adds or drops a field of the line at an offset.
fn damage_field(rng: &mut Numbers, text: &mut Vec<u8>, at: usize) {
    let start = text[..at].iter().rposition(|&b| b == b'\n').map_or(0, |end| end + 1);
    let end = text[at..].iter().position(|&b| b == b'\n').map_or(text.len(), |end| at + end);
    let line = text[start..end].to_vec();
    let mut fields: Vec<&[u8]> = line.split(|&b| b == b'\t').collect();
    let place = rng.below(fields.len());
    match rng.below(5) {
        0 => fields[0] = rng.pick(&WORDS).as_bytes(),
        1 => fields.insert(place + 1, rng.pick(&FIELDS)),
        2 => drop(fields.remove(place)),
        _ => fields[place] = rng.pick(&FIELDS),
    }
    text.splice(start..end, fields.join(&b'\t'));
}

//! Texts of many names, to time how the reader numbers them: globals alone, up to names that all share one
//! hash.

/// The hash that the colliding names share.
const HASH: usize = 7;

/// The hash of crate `read_fields`: what is multiplied at each byte, and how many hashes there are.
const FACTOR: usize = 1597;
const HASHES: usize = 4096;

/// A text of so many globals.
pub fn globals(count: usize, name: impl Fn(usize) -> String) -> Vec<u8> {
    let lines: String = (0..count).map(|i| format!("global\t{}\n", name(i))).collect();
    format!("tree\t{count}\t0\n{lines}").into_bytes()
}

/// A text of so many globals, all of one hash: a prefix and five letters.
pub fn colliding_globals(count: usize, prefix: &str) -> Vec<u8> {
    let names = colliding_names(count, prefix);
    globals(count, |i| names[i].clone())
}

/// So many names, all of one hash: a prefix and five letters, of which the last makes the hash what it is.
pub fn colliding_names(count: usize, prefix: &str) -> Vec<String> {
    let stems = (0..).map(|i| format!("{prefix}{}", four_letters(i)));
    stems.filter_map(|stem| Some(format!("{stem}{}", last_letter(&stem)?))).take(count).collect()
}

/// The letter after which a name has the hash that is wanted, if there is one.
fn last_letter(stem: &str) -> Option<char> {
    let byte = (HASH + HASHES - hash(stem) * FACTOR % HASHES) % HASHES;
    let letter = char::from(u8::try_from(byte).ok()?);
    letter.is_ascii_alphabetic().then_some(letter)
}

/// The number as four letters, the lowest first.
fn four_letters(number: usize) -> String {
    let letters: Vec<char> = ('a'..='z').chain('A'..='Z').collect();
    (0..4).map(|place| letters[number / letters.len().pow(place) % letters.len()]).collect()
}

fn hash(name: &str) -> usize {
    name.bytes().fold(0, |hash, byte| (hash * FACTOR + usize::from(byte)) % HASHES)
}

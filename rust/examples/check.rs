//! A maker's first program in Rust: the faults of a script, from its tree text. README.md says how to run it.
//!
//!     check TREE [SCRIPT]
//!
//! It prints what examples/check.c prints, where spans, lines and columns are explained. Exit status: 0 the
//! text is accepted, 1 it has faults, 2 it is refused or a file cannot be read.

use serduzhap::{report, version, NoReport, Record, LONGEST_REPORT, VERSION, WORK};
use std::io::{self, Write};
use std::path::{Path, PathBuf};
use std::process::ExitCode;
use std::{env, fs};

const FAULTS: u8 = 1;
const REFUSED: u8 = 2;

/// A file: its name, and its bytes.
struct File {
    name: PathBuf,
    bytes: Vec<u8>,
}

/// Where a span lies in the script: the number and the text of its first line, what of the line stands before
/// the span, and the part that is in it.
struct Place<'s> {
    line: usize,
    text: &'s [u8],
    before: &'s [u8],
    part: &'s [u8],
}

impl<'s> Place<'s> {
    /// The place of a span; none where it does not lie in the script. A line ends in LF, and a CR before it is
    /// not shown.
    fn of(script: &'s [u8], start: usize, end: usize) -> Option<Self> {
        let span = script.get(start..end)?;
        let is_line_end = |byte: &u8| *byte == b'\n';
        let (above, rest) = script.split_at(start);
        let line = above.iter().filter(|byte| is_line_end(byte)).count() + 1;
        let line_start = above.iter().rposition(is_line_end).map_or(0, |last| last + 1);
        let line_end = rest.iter().position(is_line_end).map_or(script.len(), |next| start + next);
        let text = &script[line_start..line_end];
        let text = text.strip_suffix(b"\r").unwrap_or(text);
        let part = &span[..span.len().min((line_start + text.len()).saturating_sub(start))];
        Some(Place { line, text, before: &above[line_start..], part })
    }
}

/// The first bytes of the characters of UTF-8 in a part.
fn characters(part: &[u8]) -> impl Iterator<Item = u8> + '_ {
    part.iter().copied().filter(|byte| byte & 0xc0 != 0x80)
}

/// A fault with its place: the line, and below it the part underlined, at least one character of it. Tabs
/// before it are kept.
fn placed(name: &Path, at: &Place, message: &str) -> Vec<u8> {
    let column = characters(at.before).count() + 1;
    let blanks: String = characters(at.before).map(|byte| if byte == b'\t' { '\t' } else { ' ' }).collect();
    let rest = "~".repeat(characters(at.part).count().saturating_sub(1));
    let head = format!("{}:{}:{column}: {message}\n", name.display(), at.line);
    let underline = format!("\n{blanks}^{rest}\n");
    [head.as_bytes(), at.text, underline.as_bytes()].concat()
}

/// What is printed of a fault.
fn fault(record: &Record, text: &[u8], script: Option<&File>) -> Vec<u8> {
    let message = record.message(text).expect("a record of this text").to_string();
    let (start, end) = (record.start as usize, record.end as usize);
    let place = script.and_then(|script| Some((&script.name, Place::of(&script.bytes, start, end)?)));
    match place {
        Some((name, at)) => placed(name, &at, &message),
        None => format!("{start}-{end}: {message}\n").into_bytes(),
    }
}

/// Why there is no report. What is not documented is a refusal, too: the library's crate sees to it.
fn refusal(text_name: &Path, why: NoReport) -> String {
    let text_name = text_name.display();
    match why {
        NoReport::Refused(refusal) if refusal.line != 0 => {
            let (line, reason) = (refusal.line, refusal.reason);
            format!("{text_name}:{line}: refused: {reason} ({})\n", reason.number())
        }
        other => format!("{text_name}: refused: {other}\n"),
    }
}

/// Reports once; answers with what is printed and the exit status.
fn check(text: &File, script: Option<&File>) -> (Vec<u8>, ExitCode) {
    let (mut work, mut out) = (vec![0; WORK], vec![0; LONGEST_REPORT]);
    match report(&text.bytes, &mut work, &mut out) {
        Err(why) => (refusal(&text.name, why).into_bytes(), ExitCode::from(REFUSED)),
        Ok(records) if records.len() == 0 => {
            (format!("{}: accepted\n", text.name.display()).into_bytes(), ExitCode::SUCCESS)
        }
        Ok(records) => {
            let faults: Vec<u8> = records.flat_map(|record| fault(&record, &text.bytes, script)).collect();
            (faults, ExitCode::from(FAULTS))
        }
    }
}

fn read(name: &Path) -> Result<File, String> {
    let bytes = fs::read(name).map_err(|_| format!("{}: cannot be read", name.display()))?;
    Ok(File { name: name.to_path_buf(), bytes })
}

fn run(words: &[PathBuf]) -> Result<ExitCode, String> {
    let (text, script) = match words {
        [text] => (text, None),
        [text, script] => (text, Some(script)),
        _ => return Err("usage: check TREE [SCRIPT]".to_string()),
    };
    if version().0 != VERSION.0 {
        return Err("the library has another version than the crate".to_string());
    }
    let text = read(text)?;
    let script = script.map(|name| read(name)).transpose()?;
    let (printed, status) = check(&text, script.as_ref());
    io::stdout().write_all(&printed).map_err(|error| error.to_string())?;
    Ok(status)
}

fn main() -> ExitCode {
    let words: Vec<PathBuf> = env::args_os().skip(1).map(PathBuf::from).collect();
    run(&words).unwrap_or_else(|why| {
        eprintln!("{why}");
        ExitCode::from(REFUSED)
    })
}

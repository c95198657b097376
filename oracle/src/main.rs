//! Runs trees and texts through the Rust original and through the library, and says whether they differ.
//! oracle/run.sh builds and runs it. Exit status: 0 no difference, 1 a difference, 2 bad usage.

use oracle::compare::{Compared, Comparison};
use oracle::every_tree::compare_every;
use oracle::guarded::compare_damaged;
use oracle::random_tree::compare_random;
use oracle::vectors::{answer, write_vectors};
use std::io::{self, Read};
use std::process::ExitCode;
use std::time::Instant;

const USAGE: &str = "\
trees COUNT SEED       random trees, each repaired fault by fault
every LINES NAMES      all trees of up to so many lines after the first, over so many names, at most three
damaged COUNT SEED     damaged texts, each buffer between pages that may not be touched
vectors FOLDER SEED    writes answers of the original as files to replay
one < TEXT             the original's answer to a tree text";

fn main() -> ExitCode {
    let words: Vec<String> = std::env::args().skip(1).collect();
    let words: Vec<&str> = words.iter().map(String::as_str).collect();
    run(&words).unwrap_or_else(|| {
        eprintln!("{USAGE}");
        ExitCode::from(2)
    })
}

/// Runs a command; none where it is not one.
fn run(words: &[&str]) -> Option<ExitCode> {
    Some(match *words {
        ["trees", count, seed] => {
            let (count, seed) = (number(count)?, number(seed)?);
            compared(|comparison| compare_random(comparison, count, seed))
        }
        ["every", lines, names] => {
            let (lines, names) = (number(lines)? as usize, number(names)? as usize);
            compared(|comparison| compare_every(comparison, lines, names))
        }
        ["damaged", count, seed] => {
            let (count, seed) = (number(count)?, number(seed)?);
            compared(|comparison| compare_damaged(comparison, count, seed))
        }
        ["vectors", folder, seed] => {
            let seed = number(seed)?;
            compared(|comparison| write_vectors(comparison, folder, seed))
        }
        ["one"] => answer_one(),
        _ => return None,
    })
}

fn number(word: &str) -> Option<u64> {
    word.parse().ok()
}

/// Runs a comparison to its end or to its first difference, and says what was compared.
fn compared(run: impl FnOnce(&mut Comparison) -> Compared) -> ExitCode {
    let (start, mut comparison) = (Instant::now(), Comparison::default());
    let result = run(&mut comparison);
    let (tally, seconds) = (comparison.tally, start.elapsed().as_secs_f64());
    println!("{} trees, {} texts compared, {seconds:.1} s\n{tally}", tally.trees, tally.texts);
    match result {
        Ok(()) => {
            println!("no difference");
            ExitCode::SUCCESS
        }
        Err(difference) => {
            println!("DIFFERENCE {difference}");
            ExitCode::FAILURE
        }
    }
}

/// The original's answer to the text on standard input.
fn answer_one() -> ExitCode {
    let mut text = Vec::new();
    io::stdin().read_to_end(&mut text).expect("standard input can be read");
    print!("{}", answer(&text));
    ExitCode::SUCCESS
}

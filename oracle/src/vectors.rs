//! Answers of the Rust original in files that a program can replay where there is no Rust:
//! crates/test_original does so in the gate.
//!
//! `stdin` holds the texts, each after its length in four bytes, the low byte first. `stdout` holds a line
//! for each: `accepted`; or kind, start, end and message of the original's first error; or `refused`, number
//! and line, by the plain parser. Where a lambda captures several faulty names, the original names any of
//! them: such trees are left out.

use crate::compare::{Compared, Comparison};
use crate::fault::{kind_of, may_be_first};
use crate::numbers::Numbers;
use crate::random_tree::random_tree;
use crate::repair::repair;
use original::parser::ast::StmtS;
use original::text_tree;
use original::tree_text::tree_text;
use std::collections::BTreeMap;
use std::path::Path;
use std::{fs, io};

/// The trees that answers are looked for in.
const TREES: usize = 20_000;
/// So many of each answer: accepted, each kind, each refusal.
const EACH: usize = 50;
/// Longer texts are left out.
const LONGEST: usize = 1000;
/// Trees with more faults are not repaired further.
const MOST_FAULTS: usize = 100;

/// The original's answer to a text, as a line.
pub fn answer(text: &[u8]) -> String {
    let tree = match text_tree::parse(text) {
        Ok(tree) => tree,
        Err(refusal) => return format!("refused\t{}\t{}\n", refusal.number, refusal.line),
    };
    match original::first_error(&tree.globals, &tree.body) {
        None => "accepted\n".to_string(),
        Some(error) => {
            let kind = kind_of(&error.message).number();
            format!("{kind}\t{}\t{}\t{}\n", error.span.start, error.span.end, error.message)
        }
    }
}

/// What the two files will hold.
#[derive(Default)]
struct Vectors {
    texts: Vec<u8>,
    answers: String,
    /// How many there are of each answer.
    counts: BTreeMap<String, usize>,
}

impl Vectors {
    /// Takes a text and its answer, unless there are enough like it.
    fn take(&mut self, text: &[u8]) {
        let answer = answer(text);
        let count = self.counts.entry(sort_of(&answer)).or_default();
        if *count < EACH && text.len() <= LONGEST {
            *count += 1;
            self.texts.extend((text.len() as u32).to_le_bytes());
            self.texts.extend(text);
            self.answers.push_str(&answer);
        }
    }

    /// Takes a tree with its stages, repaired fault by fault.
    fn take_stages(&mut self, comparison: &mut Comparison, globals: &[String], mut body: Vec<StmtS>) -> Compared {
        comparison.tally.trees += 1;
        loop {
            comparison.tally.texts += 1;
            let text = tree_text(globals, &body).expect("names of the pools").into_bytes();
            let Ok(tree) = text_tree::parse(&text) else {
                self.take(&text);
                return Ok(());
            };
            let mut faults = comparison.faults(&text)?;
            let faulty = comparison.compare_first(&text, &tree, &faults)?.is_some();
            if may_be_first(&faults) == 1 {
                self.take(&text);
            }
            if !faulty || faults.len() > MOST_FAULTS {
                return Ok(());
            }
            faults.truncate(1);
            repair(&mut body, &faults);
        }
    }

    fn write(&self, folder: &Path) -> io::Result<()> {
        fs::write(folder.join("stdin"), &self.texts)?;
        fs::write(folder.join("stdout"), &self.answers)
    }
}

/// What answers are alike: the number of a refusal, the kind of a fault, or accepted.
fn sort_of(answer: &str) -> String {
    let fields = if answer.starts_with("refused") { 2 } else { 1 };
    answer.trim_end().split('\t').take(fields).collect::<Vec<_>>().join(" ")
}

/// Writes the two files to a folder.
pub fn write_vectors(comparison: &mut Comparison, folder: &str, seed: u64) -> Compared {
    let (mut rng, mut vectors) = (Numbers::new(seed), Vectors::default());
    for _ in 0..TREES {
        let (globals, body) = random_tree(&mut rng);
        vectors.take_stages(comparison, &globals, body)?;
    }
    vectors.write(Path::new(folder)).unwrap_or_else(|error| panic!("{folder}: {error}"));
    let (lines, bytes) = (vectors.answers.lines().count(), vectors.texts.len());
    println!("{lines} answers, {bytes} bytes of texts: {:?}", vectors.counts);
    Ok(())
}

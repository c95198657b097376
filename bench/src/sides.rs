//! A text through `check` and through what it is timed beside, in one process: the reader alone, a plain parser
//! with the Rust original's name pass, and the pass alone on a tree that is ready. In each run every side has
//! its turn, so that what disturbs the machine hits all of them; the best call of each side counts.

use crate::reader::read;
use oracle::compare::{Compared, Comparison};
use original::text_tree::{self, Tree};
use serduzhap::{check, Check, WORK};
use std::hint::black_box;
use std::iter::Sum;
use std::time::Instant;

/// A text that library and original accept, and its tree.
pub struct Accepted {
    pub text: Vec<u8>,
    pub tree: Tree,
}

/// The time of each side, in ns.
#[derive(Clone, Copy, Default)]
pub struct Times {
    pub check: f64,
    pub reader: f64,
    pub parser_and_pass: f64,
    pub pass: f64,
}

impl Accepted {
    /// A text that both have to accept: the original stops at its first error, so of others the times would
    /// say nothing.
    pub fn new(title: &str, text: Vec<u8>) -> Self {
        let mut comparison = Comparison::default();
        let tree = agreed(&mut comparison, &text).unwrap_or_else(|what| panic!("{title}: {what}"));
        assert_eq!(comparison.tally.accepted, 1, "{title} is not accepted");
        Accepted { text, tree }
    }

    /// The best of so many runs, in each of which a side is called so many times in a row.
    pub fn times(&self, runs: usize, calls: usize) -> Times {
        let mut work = vec![u32::MAX; WORK];
        let most = f64::MAX;
        let mut least = Times { check: most, reader: most, parser_and_pass: most, pass: most };
        for _ in 0..runs {
            shorten(&mut least.check, calls, || check(black_box(&self.text), &mut work) == Check::Accepted);
            shorten(&mut least.reader, calls, || read(black_box(&self.text), &mut work).refusal == 0);
            shorten(&mut least.parser_and_pass, calls, || {
                text_tree::parse(black_box(&self.text)).is_ok_and(|tree| passes(&tree))
            });
            shorten(&mut least.pass, calls, || passes(black_box(&self.tree)));
        }
        least
    }
}

impl Sum for Times {
    fn sum<I: Iterator<Item = Times>>(all: I) -> Times {
        all.fold(Times::default(), |sum, one| Times {
            check: sum.check + one.check,
            reader: sum.reader + one.reader,
            parser_and_pass: sum.parser_and_pass + one.parser_and_pass,
            pass: sum.pass + one.pass,
        })
    }
}

/// Makes the time of a side the least of what it was and of so many calls.
fn shorten(least: &mut f64, calls: usize, mut side: impl FnMut() -> bool) {
    for _ in 0..calls {
        let start = Instant::now();
        let answer = side();
        *least = least.min(start.elapsed().as_nanos() as f64);
        assert!(answer);
    }
}

/// The tree of a text on which both have to agree: on the first fault, or that there is none.
pub fn agreed(comparison: &mut Comparison, text: &[u8]) -> Compared<Tree> {
    let tree = comparison.read_by_both(text)?.ok_or("refused by both")?;
    let faults = comparison.faults(text)?;
    comparison.compare_first(text, &tree, &faults)?;
    Ok(tree)
}

/// Whether the original has no error.
pub fn passes(tree: &Tree) -> bool {
    original::first_error(&tree.globals, &tree.body).is_none()
}

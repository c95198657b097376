//! What was compared: how many trees and texts, and what came of them.

use original::text_tree::Tree;
use std::fmt::{self, Display, Formatter};

#[derive(Default)]
pub struct Tally {
    pub trees: u64,
    /// A tree has a text, and one more for each of its repairs or damages.
    pub texts: u64,
    pub accepted: u64,
    /// How often each refusal came, by its number.
    pub refused: [u64; 8],
    /// How often each kind was the first fault.
    pub first_faults: [u64; 16],
    /// How often the first fault was one of several captures of a lambda.
    pub several_captures: u64,
    /// The most bytes, lines after the first and depth of a text that is not refused.
    longest: usize,
    most_lines: usize,
    deepest: usize,
}

impl Tally {
    /// Notes the size of a text that is a tree.
    pub fn note_size(&mut self, text: &[u8], tree: &Tree) {
        self.longest = self.longest.max(text.len());
        self.most_lines = self.most_lines.max(tree.lines);
        self.deepest = self.deepest.max(tree.depth);
    }
}

impl Display for Tally {
    fn fmt(&self, to: &mut Formatter) -> fmt::Result {
        let kinds = listed(&self.first_faults, 8..16);
        let refused = listed(&self.refused, (1..8).filter(|&number| self.refused[number] > 0));
        writeln!(to, "accepted {}; first faults {kinds}; refused {refused}", self.accepted)?;
        write!(
            to,
            "lambdas with several captures {}; at most {} bytes, {} lines, depth {}",
            self.several_captures, self.longest, self.most_lines, self.deepest
        )
    }
}

/// Each of these numbers with its count.
fn listed(counts: &[u64], numbers: impl Iterator<Item = usize>) -> String {
    numbers.map(|number| format!("{number}: {}", counts[number])).collect::<Vec<_>>().join(", ")
}

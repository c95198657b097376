//! A script for the reader: assignments, calls and branches over some sixty names, all statements of the
//! module.

use oracle::numbers::Numbers;

const NAMES: [&str; 15] = [
    "speed",
    "vial",
    "pump",
    "oven_temp",
    "count",
    "x",
    "i",
    "rack",
    "needle",
    "wash",
    "result",
    "sample_id",
    "limit",
    "delay",
    "print",
];

/// The tree text of such a script, of about so many lines.
pub fn flat_script(lines: usize) -> Vec<u8> {
    let mut script = FlatScript { rng: Numbers::new(1), at: 90000, lines: Vec::new() };
    let mut statements = 0;
    while script.lines.len() + 6 < lines {
        script.statement();
        statements += 1;
    }
    format!("tree\t0\t{statements}\n{}\n", script.lines.join("\n")).into_bytes()
}

struct FlatScript {
    rng: Numbers,
    /// Where in the script the next span starts.
    at: usize,
    lines: Vec<String>,
}

impl FlatScript {
    /// A line with its span, counted from here, and its other fields.
    fn line(&mut self, word: &str, start: usize, end: usize, rest: &str) {
        self.lines.push(format!("{word}\t{}\t{}{rest}", self.at + start, self.at + end));
    }

    fn var(&mut self) {
        self.at += 7;
        let k = self.rng.below(60);
        let name = NAMES.get(k).map_or_else(|| format!("step_{k}"), |name| name.to_string());
        self.line("var", 0, name.len(), &format!("\t{name}"));
    }

    fn statement(&mut self) {
        match self.rng.below(10) {
            0..=3 => {
                self.line("assign", 0, 20, "");
                self.line("bin", 8, 15, "");
                self.var();
                self.line("lit", 0, 1, "");
                self.var();
            }
            4..=6 => {
                self.line("expr", 0, 9, "");
                self.line("call", 0, 9, "\t2");
                self.var();
                self.var();
                self.line("lit", 0, 2, "");
            }
            _ => {
                self.line("if", 0, 40, "\t1\t0\t0");
                self.var();
                self.line("assign", 0, 20, "");
                self.line("lit", 0, 1, "");
                self.var();
            }
        }
    }
}

//! A script for the check, which looks like a real one and has no fault: functions of some thirty lines that
//! are called, loops, branches, calls of built-in functions.

use oracle::numbers::Numbers;

const NAMES: [&str; 12] =
    ["speed", "vial", "pump", "oven_temp", "count", "rack", "needle", "wash", "result", "sample_id", "limit", "delay"];
const ENDINGS: [&str; 4] = ["", "_a", "_b", "_1"];
const BUILT_IN: [&str; 4] = ["print", "len", "int", "str"];

/// The lines of a function, of an inner block, and of the statements between functions.
const FUNCTION: usize = 25;
const BLOCK: usize = 6;
const BETWEEN: usize = 10;

/// Expressions and blocks stand no deeper in each other.
const DEEPEST_EXPR: usize = 3;
const DEEPEST_BLOCK: usize = 4;

/// The tree text of such a script, of about so many lines.
pub fn script(lines: usize) -> Vec<u8> {
    let mut script = Script { rng: Numbers::new(1), at: 100, lines: Vec::new() };
    let (mut statements, mut functions) = (0, 0);
    while script.lines.len() + 50 < lines {
        functions += 1;
        script.function(&format!("step_{functions}"));
        statements += 2;
        if functions % 3 == 0 {
            statements += script.body(&mut Vec::new(), BETWEEN, 0);
        }
    }
    format!("tree\t0\t{statements}\n{}\n", script.lines.join("\n")).into_bytes()
}

struct Script {
    rng: Numbers,
    /// Where in the script the last span starts.
    at: usize,
    lines: Vec<String>,
}

impl Script {
    fn span(&mut self) -> String {
        self.at += 7;
        format!("{}\t{}", self.at, self.at + 3 + self.rng.below(27))
    }

    /// A line: its word, a span and its other fields.
    fn line(&mut self, word: &str, rest: &str) {
        let span = self.span();
        self.lines.push(format!("{word}\t{span}{rest}"));
    }

    /// Keeps the place of a line whose counts are known only when its block is there.
    fn keep_line(&mut self) -> usize {
        self.lines.push(String::new());
        self.lines.len() - 1
    }

    fn fill_line(&mut self, place: usize, word: &str, rest: &str) {
        let span = self.span();
        self.lines[place] = format!("{word}\t{span}{rest}");
    }

    fn var(&mut self, name: &str) {
        self.line("var", &format!("\t{name}"));
    }

    /// A function of two parameters and a call of it: two statements.
    fn function(&mut self, name: &str) {
        let head = self.keep_line();
        let count = self.body(&mut vec!["a".into(), "b".into()], FUNCTION, 1);
        self.fill_line(head, "def", &format!("\t{name}\t{count}\ta\tb"));
        self.line("expr", "");
        self.line("call", "\t2");
        self.var(name);
        self.line("lit", "");
        self.line("lit", "");
    }

    /// Statements of at least so many lines, over names that are bound; answers how many there are.
    fn body(&mut self, names: &mut Vec<String>, lines: usize, depth: usize) -> usize {
        let until = self.lines.len() + lines;
        let mut count = 0;
        while self.lines.len() < until {
            count += 1;
            match self.rng.below(10) {
                8 if depth < DEEPEST_BLOCK && !names.is_empty() => self.branch(names, depth),
                9 if depth < DEEPEST_BLOCK => self.repeat(names, depth),
                5..=7 if !names.is_empty() => self.print(names),
                _ => self.assign(names),
            }
        }
        count
    }

    fn branch(&mut self, names: &[String], depth: usize) {
        let head = self.keep_line();
        self.expr(names, 0);
        let count = self.body(&mut names.to_vec(), BLOCK, depth + 1);
        self.fill_line(head, "if", &format!("\t{count}\t0\t0"));
    }

    fn repeat(&mut self, names: &[String], depth: usize) {
        let head = self.keep_line();
        self.line("call", "\t1");
        self.var("range");
        self.expr(names, 0);
        let mut inner = names.to_vec();
        inner.push("i".into());
        let count = self.body(&mut inner, BLOCK, depth + 1);
        self.fill_line(head, "for", &format!("\ti\t{count}"));
    }

    fn print(&mut self, names: &[String]) {
        self.line("expr", "");
        self.line("call", "\t1");
        self.var("print");
        self.expr(names, 0);
    }

    /// An assignment to a name, which is bound from then on.
    fn assign(&mut self, names: &mut Vec<String>) {
        let name = format!("{}{}", self.rng.pick(&NAMES), self.rng.pick(&ENDINGS));
        self.line("assign", "");
        self.expr(names, 0);
        self.var(&name);
        names.push(name);
    }

    fn expr(&mut self, names: &[String], depth: usize) {
        match self.rng.below(6) {
            2 if depth < DEEPEST_EXPR => self.line("lit", ""),
            3 if depth < DEEPEST_EXPR => {
                self.line("bin", "");
                self.expr(names, depth + 1);
                self.expr(names, depth + 1);
            }
            4 if depth < DEEPEST_EXPR => self.call(names, depth),
            5 if depth < DEEPEST_EXPR => {
                let name = self.rng.pick(&NAMES);
                self.line("get", &format!("\t{name}"));
                self.expr(names, depth + 1);
            }
            _ if names.is_empty() => self.line("lit", ""),
            _ => {
                let name = &names[self.rng.below(names.len())];
                self.var(name);
            }
        }
    }

    /// A call of a built-in function with up to two arguments.
    fn call(&mut self, names: &[String], depth: usize) {
        let count = self.rng.below(3);
        self.line("call", &format!("\t{count}"));
        let name = self.rng.pick(&BUILT_IN);
        self.var(name);
        for _ in 0..count {
            self.expr(names, depth + 1);
        }
    }
}

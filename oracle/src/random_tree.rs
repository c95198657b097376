//! Random trees of the Rust original over few names, so that bindings and reads collide: functions in
//! functions, methods, classes in functions, lambdas in lambdas with parameters that hide others, tuple
//! targets and refused ones, built-in names bound again. Sizes go from one line to past the limits. Each
//! line's span starts at a number of its own.
//!
//! A seed gives the same trees as long as numbers are drawn in the same order: fields stand here in that
//! order.

use crate::compare::{Compared, Comparison};
use crate::numbers::Numbers;
use crate::visit::{self, Visit};
use original::parser::ast::{BinaryOp, Expr, ExprS, Literal, MethodDef, Stmt, StmtS, UnaryOp};
use original::text_tree::{LONGEST_NAME, LONGEST_TEXT, MOST_LINES, MOST_PARAMS};
use original::tree_text::tree_text;
use original::types::Span;
use std::ops::Range;

/// How often each form is taken, in the order of `Grower::stmt` and `Grower::expr`.
struct Profile {
    stmts: [usize; 9],
    exprs: [usize; 13],
}

/// Some of all; lambdas in functions; targets; blocks in blocks.
const PROFILES: [Profile; 4] = [
    Profile { stmts: [5, 6, 2, 1, 2, 1, 6, 3, 1], exprs: [3, 9, 1, 3, 2, 5, 2, 1, 1, 1, 1, 1, 5] },
    Profile { stmts: [8, 5, 1, 1, 1, 1, 9, 1, 0], exprs: [1, 12, 1, 9, 1, 4, 1, 1, 1, 0, 0, 1, 9] },
    Profile { stmts: [4, 14, 1, 1, 2, 1, 4, 2, 0], exprs: [2, 9, 1, 2, 4, 3, 4, 1, 6, 1, 1, 1, 2] },
    Profile { stmts: [6, 4, 6, 3, 5, 2, 4, 4, 1], exprs: [4, 9, 1, 2, 1, 4, 1, 1, 1, 1, 1, 1, 2] },
];

/// The names of a tree.
const POOLS: [&[&str]; 10] = [
    &["x"],
    &["x", "y"],
    &["x", "y"],
    &["x", "y", "z"],
    &["x", "xx", "print"],
    &["x", "self", "len"],
    &["f", "g", "self", "set", "x"],
    &["_", "A", "a", "treeset", "assert"],
    &["q1", "q2", "q3", "q4", "q5", "q6", "q7", "q8", "q9", "range", "map", "filter"],
    &[
        "vial",
        "abcdefghijklmnopqrstuvwxyzABCDEFGHIJKLMNOPQRSTUVWXYZ_0123456789",
        "abcdefghijklmnopqrstuvwxyzABCDEFGHIJKLMNOPQRSTUVWXYZ_012345678_",
    ],
];

const LEAVES: [Stmt; 3] = [Stmt::Break, Stmt::Continue, Stmt::Pass];
const UNARY: [UnaryOp; 3] = [UnaryOp::Not, UnaryOp::Negate, UnaryOp::Pos];
const BINARY: [BinaryOp; 14] = [
    BinaryOp::Add,
    BinaryOp::Subtract,
    BinaryOp::Multiply,
    BinaryOp::Divide,
    BinaryOp::FloorDivide,
    BinaryOp::Modulo,
    BinaryOp::Equal,
    BinaryOp::NotEqual,
    BinaryOp::Less,
    BinaryOp::LessEqual,
    BinaryOp::Greater,
    BinaryOp::GreaterEqual,
    BinaryOp::And,
    BinaryOp::Or,
];

/// The span of every line until they are numbered.
const NOWHERE: Span = Span { start: 0, end: 0 };

/// A tree: names that are bound before, and statements.
type Script = (Vec<String>, Vec<StmtS>);

/// So many random trees.
pub fn compare_random(comparison: &mut Comparison, count: u64, seed: u64) -> Compared {
    let mut rng = Numbers::new(seed);
    for _ in 0..count {
        let (globals, body) = random_tree(&mut rng);
        comparison.compare_tree(&globals, body)?;
    }
    Ok(())
}

/// A tree; most are small, and one in a thousand goes to a limit or one past it.
pub fn random_tree(rng: &mut Numbers) -> Script {
    match rng.below(1000) {
        0 => at_a_limit(rng),
        1..=5 => sized(rng, 300, 2000),
        6..=60 => sized(rng, 30, 270),
        _ => sized(rng, 1, 28),
    }
}

/// A tree that goes to a limit or one past it, of lines or of bytes, where it has not grown past that by
/// itself.
fn at_a_limit(rng: &mut Numbers) -> Script {
    let (mut globals, mut body) = sized(rng, 2500, 1600);
    let text = text_of(&globals, &body);
    if rng.one_in(2) {
        let lines = text.lines().count() - 1;
        body.extend((lines..MOST_LINES + rng.below(2)).map(|_| (Stmt::Pass, NOWHERE)));
        number_spans(&mut body, rng);
    } else {
        let limit = LONGEST_TEXT + rng.below(2);
        lengthen(rng, &mut globals, &body, limit);
    }
    (globals, body)
}

/// Adds globals until the text has so many bytes.
fn lengthen(rng: &mut Numbers, globals: &mut Vec<String>, body: &[StmtS], limit: usize) {
    const LINE: usize = "global\t\n".len();
    let mut length = text_of(globals, body).len();
    while length + 80 < limit {
        let name = "z".repeat(1 + rng.below(LONGEST_NAME));
        length += LINE + name.len();
        globals.push(name);
    }
    let missing = limit.saturating_sub(text_of(globals, body).len());
    if missing > LINE {
        globals.push("z".repeat((missing - LINE).min(LONGEST_NAME)));
    }
}

fn text_of(globals: &[String], body: &[StmtS]) -> String {
    tree_text(globals, body).expect("names of the pools")
}

/// A tree of about `least` lines and up to `more` beside.
fn sized(rng: &mut Numbers, least: usize, more: usize) -> Script {
    let chain = rng.one_in(16);
    let deepest = if chain { 50 + rng.below(16) } else { 4 + rng.below(8) };
    let lines = least + rng.below(more) + if chain { rng.below(200) } else { 0 };
    let pool = rng.pick(&POOLS);
    let profile = &PROFILES[rng.below(PROFILES.len())];
    let mut grower = Grower { rng, pool, profile, left: lines as isize, deepest, chain };
    let globals: Vec<String> = (0..grower.rng.pick(&[0, 0, 0, 0, 1, 2])).map(|_| grower.name()).collect();
    let mut body = Vec::new();
    while grower.left > 0 && body.len() < MOST_LINES {
        body.push(grower.stmt(1));
    }
    number_spans(&mut body, rng);
    (globals, body)
}

/// Gives each line a span that starts at a number of its own.
pub fn number_spans(body: &mut [StmtS], rng: &mut Numbers) {
    let far = rng.one_in(4);
    let step = if far { 1 + rng.below(1_000_000) as u32 } else { 1 };
    visit::stmts(body, &mut Numbering { rng, next: 0, step, far });
}

struct Numbering<'a> {
    rng: &'a mut Numbers,
    next: u32,
    step: u32,
    /// Spans end anywhere, not three past their start.
    far: bool,
}

impl Numbering<'_> {
    fn span(&mut self) -> Span {
        self.next = self.next.wrapping_add(self.step);
        let end = if self.far { self.rng.bits() as u32 } else { self.next + 3 };
        Span { start: self.next, end }
    }
}

impl Visit for Numbering<'_> {
    fn stmt(&mut self, stmt: &mut StmtS) {
        stmt.1 = self.span();
    }

    fn expr(&mut self, expr: &mut ExprS) {
        expr.1 = self.span();
    }
}

/// What a tree grows from.
struct Grower<'a> {
    rng: &'a mut Numbers,
    pool: &'static [&'static str],
    profile: &'static Profile,
    /// Lines that may still be made; a little fewer than none where a line had to have children.
    left: isize,
    /// No line stands deeper, but for the leaf that a line there has to have.
    deepest: usize,
    /// One long chain rather than a bush.
    chain: bool,
}

impl Grower<'_> {
    fn name(&mut self) -> String {
        self.rng.pick(self.pool).to_string()
    }

    fn params(&mut self) -> Vec<String> {
        let most = if self.rng.one_in(50) { MOST_PARAMS + 1 } else { 3 };
        let count = self.rng.pick(&[0, 0, 1, 1, 2, most]);
        (0..count).map(|_| self.name()).collect()
    }

    /// One of these counts; each line of a chain has one child.
    fn count(&mut self, from: &[usize]) -> usize {
        if self.chain {
            1
        } else {
            self.rng.pick(from)
        }
    }

    /// A form by its weight; a chain does not end early, in a leaf.
    fn form(&mut self, weights: &[usize], leaves: Range<usize>) -> usize {
        loop {
            let form = self.rng.weighted(weights);
            if !(self.chain && leaves.contains(&form)) {
                return form;
            }
        }
    }

    /// Whether a line that has its children at a depth has to be a leaf.
    fn has_to_be_leaf(&self, below: usize) -> bool {
        self.left <= 0 || below > self.deepest
    }

    /// The statements of a block at a depth.
    fn body(&mut self, depth: usize) -> Vec<StmtS> {
        let mut body = Vec::new();
        for _ in 0..self.count(&[0, 1, 1, 2, 2, 3]) {
            if self.left > 0 {
                body.push(self.stmt(depth));
            }
        }
        body
    }

    /// A statement whose line stands at a depth.
    fn stmt(&mut self, depth: usize) -> StmtS {
        self.left -= 1;
        let below = depth + 1;
        let form = if self.has_to_be_leaf(below) { 8 } else { self.form(&self.profile.stmts, 8..9) };
        let stmt = match form {
            0 => Stmt::Def { name: self.name(), params: self.params(), body: self.body(below) },
            1 => {
                let value = self.expr(below);
                Stmt::Assign { target: self.target(below), value }
            }
            2 => self.branches(below),
            3 => Stmt::While { condition: self.expr(below), body: self.body(below) },
            4 => Stmt::For { var: self.name(), iterable: self.expr(below), body: self.body(below) },
            5 => Stmt::Return(self.expr(below)),
            6 => Stmt::Expr(self.expr(below)),
            7 => self.class(below),
            _ => LEAVES[self.rng.below(LEAVES.len())].clone(),
        };
        (stmt, NOWHERE)
    }

    /// An `if` whose children stand at a depth.
    fn branches(&mut self, depth: usize) -> Stmt {
        let condition = self.expr(depth);
        let then_block = self.body(depth);
        let mut elif_blocks = Vec::new();
        for _ in 0..self.rng.pick(&[0, 0, 1, 2]) {
            self.left -= 1;
            elif_blocks.push((self.expr(depth + 1), self.body(depth + 1)));
        }
        let else_block = if self.rng.one_in(2) { Some(self.body(depth)) } else { None };
        Stmt::If { condition, then_block, elif_blocks, else_block }
    }

    /// A class whose methods and attributes stand at a depth.
    fn class(&mut self, depth: usize) -> Stmt {
        let name = self.name();
        let methods = (0..self.count(&[0, 1, 1, 2])).map(|_| self.method(depth)).collect();
        let mut attributes = Vec::new();
        for _ in 0..self.rng.pick(&[0, 0, 1]) {
            self.left -= 1;
            attributes.push((self.name(), self.expr(depth + 1)));
        }
        Stmt::Class { name, methods, attributes }
    }

    /// A method at a depth; two of three have `self`.
    fn method(&mut self, depth: usize) -> MethodDef {
        self.left -= 1;
        let mut params = self.params();
        if !self.rng.one_in(3) && params.len() < MOST_PARAMS {
            params.insert(0, "self".to_string());
        }
        MethodDef { name: self.name(), params, body: self.body(depth + 1) }
    }

    /// What is assigned to: mostly a name, sometimes a tuple of targets or any expression.
    fn target(&mut self, depth: usize) -> ExprS {
        if self.left > 0 && depth < self.deepest {
            match self.rng.below(4) {
                0 => return self.expr(depth),
                1 => {
                    self.left -= 1;
                    let count = self.rng.pick(&[0, 1, 2, 2, 3]);
                    let targets = (0..count).map(|_| self.target(depth + 1)).collect();
                    return (Expr::Tuple(targets), NOWHERE);
                }
                _ => {}
            }
        }
        self.variable()
    }

    fn variable(&mut self) -> ExprS {
        self.left -= 1;
        (Expr::Variable(self.name()), NOWHERE)
    }

    /// An expression whose line stands at a depth.
    fn expr(&mut self, depth: usize) -> ExprS {
        self.left -= 1;
        let below = depth + 1;
        let leaf = self.has_to_be_leaf(below);
        let form = if leaf { self.rng.below(2) } else { self.form(&self.profile.exprs, 0..2) };
        let expr = match form {
            0 => Expr::Literal(self.literal()),
            1 => Expr::Variable(self.name()),
            2 => {
                let op = UNARY[self.rng.below(UNARY.len())].clone();
                Expr::Unary { op, expr: self.boxed(below) }
            }
            3 => {
                let op = BINARY[self.rng.below(BINARY.len())].clone();
                Expr::Binary { op, left: self.boxed(below), right: self.boxed(below) }
            }
            4 => Expr::Index { object: self.boxed(below), index: self.boxed(below) },
            5 => self.call(below),
            6 => Expr::Attribute { attr: self.name(), object: self.boxed(below) },
            7 => Expr::List(self.exprs(&[0, 1, 2], below)),
            8 => Expr::Tuple(self.exprs(&[0, 1, 2], below)),
            9 => Expr::Set(self.exprs(&[0, 1, 2], below)),
            10 => Expr::TreeSet(self.exprs(&[0, 1, 2], below)),
            11 => Expr::Dict((0..self.count(&[0, 1, 2])).map(|_| (self.expr(below), self.expr(below))).collect()),
            _ => Expr::Lambda { params: self.params(), body: self.boxed(below) },
        };
        (expr, NOWHERE)
    }

    fn boxed(&mut self, depth: usize) -> Box<ExprS> {
        Box::new(self.expr(depth))
    }

    fn exprs(&mut self, counts: &[usize], depth: usize) -> Vec<ExprS> {
        (0..self.count(counts)).map(|_| self.expr(depth)).collect()
    }

    /// A call, mostly of a name; callee and arguments stand at a depth.
    fn call(&mut self, depth: usize) -> Expr {
        let callee = if self.rng.one_in(3) { self.expr(depth) } else { self.variable() };
        Expr::Call { func_name: Box::new(callee), args: self.exprs(&[0, 0, 1, 2], depth) }
    }

    /// A literal, which the text does not hold; one with a tab and a line end in it would show if it did.
    fn literal(&mut self) -> Literal {
        match self.rng.below(5) {
            0 => Literal::Bool(true),
            1 => Literal::Int(self.rng.bits() as i64),
            2 => Literal::String("a\tb\n".to_string()),
            3 => Literal::Float(0.5),
            _ => Literal::None,
        }
    }
}

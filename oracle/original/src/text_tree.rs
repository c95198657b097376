//! A plain Rust parser of the tree text into the trees of the Rust original. It shares no code with the
//! library: it is the other reader that the library's refusals are held against, and what its time is
//! compared with.
//!
//! The lines, the limits and the refusals are those of docs/FORMAT.md.

use crate::parser::ast::{BinaryOp, Expr, ExprS, Literal, MethodDef, Stmt, StmtS, UnaryOp};
use crate::types::Span;
use std::borrow::Cow;

/// The most bytes of a text.
pub const LONGEST_TEXT: usize = 65_536;
/// The most lines after the first.
pub const MOST_LINES: usize = 4096;
/// The greatest depth of a line; statements of the script have depth 1.
pub const DEEPEST: usize = 64;
/// The most parameters of a line.
pub const MOST_PARAMS: usize = 16;
/// The most bytes of a name.
pub const LONGEST_NAME: usize = 63;
/// The largest count in a line.
const LARGEST_COUNT: u32 = 4096;

/// The numbers of the refusals; 2 is for a work buffer, which this parser does not have.
const TEXT_TOO_LONG: usize = 1;
const LINE_MISSING: usize = 3;
const LINE_LEFT: usize = 4;
const MALFORMED: usize = 5;
const NOT_DUE: usize = 6;
const OVER_LIMIT: usize = 7;

/// Why and where a text is no tree. Lines count from 1; a text that is too long is refused at line 0.
#[derive(Debug, PartialEq)]
pub struct Refusal {
    pub number: usize,
    pub line: usize,
}

/// What a text says.
#[derive(Debug, Clone, PartialEq)]
pub struct Tree {
    /// Names that are bound before the script.
    pub globals: Vec<String>,
    /// The script's statements.
    pub body: Vec<StmtS>,
    /// How many lines follow the first.
    pub lines: usize,
    /// How deep the deepest line stands.
    pub depth: usize,
}

/// What is read, or a refusal.
type Read<T> = Result<T, Refusal>;

/// Where a line may stand.
#[derive(Clone, Copy, PartialEq)]
enum Sort {
    Tree,
    Global,
    Stmt,
    Elif,
    Method,
    Attr,
    Expr,
}

/// The fields of a line after its word. Those that the word does not have are empty or zero.
struct Line<'a> {
    word: &'a str,
    span: Span,
    name: &'a str,
    counts: [usize; 3],
    params: Vec<String>,
}

/// The tree of a text, or its refusal.
pub fn parse(text: &[u8]) -> Read<Tree> {
    if text.len() > LONGEST_TEXT {
        return Err(Refusal { number: TEXT_TOO_LONG, line: 0 });
    }
    // what is no UTF-8 becomes a character that stands in no field; tabs and line ends stay
    let text = std::str::from_utf8(text).map_or_else(|_| String::from_utf8_lossy(text), Cow::Borrowed);
    let mut reader = Reader { text: &text, at: 0, line: 1, depth: 0 };
    let line = reader.due(Sort::Tree, 0)?;
    let globals = reader.several(line.counts[0], |reader| reader.global())?;
    let body = reader.stmts(line.counts[1], 1)?;
    if reader.at < text.len() {
        return reader.refuse(LINE_LEFT);
    }
    Ok(Tree { globals, body, lines: reader.line - 2, depth: reader.depth })
}

/// The sort of a word, and its fields: s a number of a span, n a name, c a count, p parameters.
fn shape(word: &str) -> Option<(Sort, &'static str)> {
    Some(match word {
        "tree" => (Sort::Tree, "cc"),
        "global" => (Sort::Global, "n"),
        "break" | "continue" | "pass" | "assign" | "return" | "expr" => (Sort::Stmt, "ss"),
        "def" => (Sort::Stmt, "ssncp"),
        "if" => (Sort::Stmt, "ssccc"),
        "elif" => (Sort::Elif, "c"),
        "while" => (Sort::Stmt, "ssc"),
        "for" => (Sort::Stmt, "ssnc"),
        "class" => (Sort::Stmt, "ssncc"),
        "method" => (Sort::Method, "ncp"),
        "attr" => (Sort::Attr, "n"),
        "lit" | "un" | "bin" | "index" => (Sort::Expr, "ss"),
        "var" | "get" => (Sort::Expr, "ssn"),
        "call" | "list" | "tuple" | "set" | "treeset" | "dict" => (Sort::Expr, "ssc"),
        "lambda" => (Sort::Expr, "ssp"),
        _ => return None,
    })
}

/// A number in decimal with no leading zero, up to the largest.
fn number(field: &str, largest: u32) -> Option<u32> {
    let digits = !field.is_empty() && field.bytes().all(|b| b.is_ascii_digit());
    if !digits || (field.len() > 1 && field.starts_with('0')) {
        return None;
    }
    field.parse().ok().filter(|&n| n <= largest)
}

fn is_name(field: &str) -> bool {
    (1..=LONGEST_NAME).contains(&field.len())
        && !field.as_bytes()[0].is_ascii_digit()
        && field.bytes().all(|b| b.is_ascii_alphanumeric() || b == b'_')
}

/// A line, if it is well formed. The line end is not part of it.
fn well_formed(line: &str) -> Option<(Sort, Line<'_>)> {
    let mut fields = line.split('\t');
    let word = fields.next()?;
    let (sort, letters) = shape(word)?;
    let mut found = Line { word, span: Span { start: 0, end: 0 }, name: "", counts: [0; 3], params: Vec::new() };
    let (mut spans, mut counts) = (0, 0);
    for letter in letters.bytes() {
        match letter {
            b's' => {
                let place = if spans == 0 { &mut found.span.start } else { &mut found.span.end };
                *place = number(fields.next()?, u32::MAX)?;
                spans += 1;
            }
            b'c' => {
                found.counts[counts] = number(fields.next()?, LARGEST_COUNT)? as usize;
                counts += 1;
            }
            b'n' => found.name = fields.next().filter(|field| is_name(field))?,
            _ => {
                for field in fields.by_ref() {
                    found.params.push(is_name(field).then(|| field.to_string())?);
                }
            }
        }
    }
    if fields.next().is_some() {
        return None;
    }
    Some((sort, found))
}

/// Where in the text the parser stands: before the line with this number.
struct Reader<'a> {
    text: &'a str,
    at: usize,
    line: usize,
    depth: usize,
}

impl<'a> Reader<'a> {
    fn refuse<T>(&self, number: usize) -> Read<T> {
        Err(Refusal { number, line: self.line })
    }

    /// Takes the next line, which has to be of this sort and stands at this depth.
    fn due(&mut self, sort: Sort, depth: usize) -> Read<Line<'a>> {
        let rest = &self.text[self.at..];
        if rest.is_empty() {
            return self.refuse(LINE_MISSING);
        }
        let Some(end) = rest.find('\n') else { return self.refuse(MALFORMED) };
        let Some((found, line)) = well_formed(&rest[..end]) else { return self.refuse(MALFORMED) };
        if found != sort {
            return self.refuse(NOT_DUE);
        }
        if self.line > MOST_LINES + 1 || line.params.len() > MOST_PARAMS || depth > DEEPEST {
            return self.refuse(OVER_LIMIT);
        }
        self.at += end + 1;
        self.line += 1;
        self.depth = self.depth.max(depth);
        Ok(line)
    }

    /// So many parts, one after the other, up to the first that is refused.
    fn several<T>(&mut self, count: usize, mut part: impl FnMut(&mut Self) -> Read<T>) -> Read<Vec<T>> {
        (0..count).map(|_| part(self)).collect()
    }

    fn global(&mut self) -> Read<String> {
        Ok(self.due(Sort::Global, 1)?.name.to_string())
    }

    fn stmts(&mut self, count: usize, depth: usize) -> Read<Vec<StmtS>> {
        self.several(count, |reader| reader.stmt(depth))
    }

    fn stmt(&mut self, depth: usize) -> Read<StmtS> {
        let line = self.due(Sort::Stmt, depth)?;
        let (span, counts, below) = (line.span, line.counts, depth + 1);
        let name = || line.name.to_string();
        let stmt = match line.word {
            "break" => Stmt::Break,
            "continue" => Stmt::Continue,
            "pass" => Stmt::Pass,
            "def" => Stmt::Def { name: name(), params: line.params, body: self.stmts(counts[0], below)? },
            "assign" => {
                let value = self.expr(below)?;
                Stmt::Assign { target: self.expr(below)?, value }
            }
            "if" => Stmt::If {
                condition: self.expr(below)?,
                then_block: self.stmts(counts[0], below)?,
                elif_blocks: self.several(counts[1], |reader| reader.elif(below))?,
                else_block: Some(self.stmts(counts[2], below)?),
            },
            "while" => Stmt::While { condition: self.expr(below)?, body: self.stmts(counts[0], below)? },
            "for" => {
                let iterable = self.expr(below)?;
                Stmt::For { var: name(), iterable, body: self.stmts(counts[0], below)? }
            }
            "return" => Stmt::Return(self.expr(below)?),
            "expr" => Stmt::Expr(self.expr(below)?),
            _ => Stmt::Class {
                name: name(),
                methods: self.several(counts[0], |reader| reader.method(below))?,
                attributes: self.several(counts[1], |reader| reader.attr(below))?,
            },
        };
        Ok((stmt, span))
    }

    fn elif(&mut self, depth: usize) -> Read<(ExprS, Vec<StmtS>)> {
        let line = self.due(Sort::Elif, depth)?;
        Ok((self.expr(depth + 1)?, self.stmts(line.counts[0], depth + 1)?))
    }

    fn method(&mut self, depth: usize) -> Read<MethodDef> {
        let line = self.due(Sort::Method, depth)?;
        let body = self.stmts(line.counts[0], depth + 1)?;
        Ok(MethodDef { name: line.name.to_string(), params: line.params, body })
    }

    fn attr(&mut self, depth: usize) -> Read<(String, ExprS)> {
        let line = self.due(Sort::Attr, depth)?;
        Ok((line.name.to_string(), self.expr(depth + 1)?))
    }

    fn exprs(&mut self, count: usize, depth: usize) -> Read<Vec<ExprS>> {
        self.several(count, |reader| reader.expr(depth))
    }

    fn boxed(&mut self, depth: usize) -> Read<Box<ExprS>> {
        self.expr(depth).map(Box::new)
    }

    fn expr(&mut self, depth: usize) -> Read<ExprS> {
        let line = self.due(Sort::Expr, depth)?;
        let (span, count, below) = (line.span, line.counts[0], depth + 1);
        let name = || line.name.to_string();
        let expr = match line.word {
            "lit" => Expr::Literal(Literal::None),
            "var" => Expr::Variable(name()),
            "un" => Expr::Unary { op: UnaryOp::Not, expr: self.boxed(below)? },
            "bin" => {
                let left = self.boxed(below)?;
                Expr::Binary { op: BinaryOp::Add, left, right: self.boxed(below)? }
            }
            "index" => Expr::Index { object: self.boxed(below)?, index: self.boxed(below)? },
            "call" => Expr::Call { func_name: self.boxed(below)?, args: self.exprs(count, below)? },
            "get" => Expr::Attribute { attr: name(), object: self.boxed(below)? },
            "list" => Expr::List(self.exprs(count, below)?),
            "tuple" => Expr::Tuple(self.exprs(count, below)?),
            "set" => Expr::Set(self.exprs(count, below)?),
            "treeset" => Expr::TreeSet(self.exprs(count, below)?),
            "dict" => Expr::Dict(self.several(count, |reader| Ok((reader.expr(below)?, reader.expr(below)?)))?),
            _ => Expr::Lambda { params: line.params, body: self.boxed(below)? },
        };
        Ok((expr, span))
    }
}

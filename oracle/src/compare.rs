//! A tree through the original's name pass and through the library. The first error has to be the first
//! fault, in kind, span and message. Then the fault that the original names is repaired and the tree compared
//! again, until none is left: so each fault of a report is compared, and how many it lists.
//!
//! Of several names that one lambda captures the original names any, so captures are compared as a set.

use crate::fault::{kind_of, may_be_first, Fault};
use crate::repair::repair;
use crate::tally::Tally;
use crate::visit::{self, Visit};
use original::parser::ast::{BinaryOp, Expr, ExprS, Literal, Stmt, StmtS, UnaryOp};
use original::semantic::SemanticError;
use original::text_tree::{self, Tree};
use original::tree_text::tree_text;
use original::types::Span;
use serduzhap::{check, message, report, Check, Kind, Record, LONGEST_MESSAGE, LONGEST_REPORT, WORK};

/// What came of a comparison; the error says what differs, and where.
pub type Compared<T = ()> = Result<T, String>;

/// Up to so many faults are repaired one by one; of more, one in so many at a time.
const ONE_BY_ONE: usize = 32;

/// The buffers that every comparison uses again, and what was compared.
pub struct Comparison {
    pub tally: Tally,
    work: Vec<u32>,
    out: Vec<u32>,
    message: Vec<u8>,
}

impl Default for Comparison {
    fn default() -> Self {
        Comparison {
            tally: Tally::default(),
            work: vec![0; WORK],
            out: vec![0; LONGEST_REPORT],
            message: vec![0; LONGEST_MESSAGE],
        }
    }
}

impl Comparison {
    /// A tree with all of its stages, from the first fault to none.
    pub fn compare_tree(&mut self, globals: &[String], mut body: Vec<StmtS>) -> Compared {
        self.tally.trees += 1;
        let mut left = None;
        loop {
            let text = tree_text(globals, &body).map_err(|name| format!("{name:?}"))?;
            forget_values(&mut body);
            let compared = self.compare_stage(globals, &body, text.as_bytes(), left);
            let Some((mut faults, named)) = compared.map_err(|what| format!("{what}\n{text}"))? else {
                return Ok(());
            };
            // the one that the original names, and some more where there are very many
            let count = faults.len();
            faults.swap(0, named);
            faults.truncate(count.div_ceil(ONE_BY_ONE));
            // a method that gets its `self` may lose further faults
            let more_may_go = faults.iter().any(|fault| fault.kind == Kind::MethodWithoutSelf);
            left = if more_may_go { None } else { Some(count - faults.len()) };
            repair(&mut body, &faults);
        }
    }

    /// One stage of a tree, of which so many faults have to be left. Answers with all faults, and which of
    /// them the original names; with none where the tree is accepted or refused by both.
    fn compare_stage(
        &mut self,
        globals: &[String],
        body: &[StmtS],
        text: &[u8],
        left: Option<usize>,
    ) -> Compared<Option<(Vec<Fault>, usize)>> {
        self.tally.texts += 1;
        let Some(read) = self.read_by_both(text)? else { return Ok(None) };
        if (globals, body) != (&read.globals[..], &read.body[..]) {
            return Err("the text read back is another tree".to_string());
        }
        let faults = self.faults(text)?;
        if left.is_some_and(|count| count != faults.len()) {
            return Err(format!("{} faults left, not {left:?}", faults.len()));
        }
        let named = self.compare_first(text, &read, &faults)?;
        Ok(named.map(|named| (faults, named)))
    }

    /// The tree of a text, read by the plain parser. None where both it and the library refuse the text; they
    /// have to do so for the same reason and at the same line.
    pub fn read_by_both(&mut self, text: &[u8]) -> Compared<Option<Tree>> {
        match (text_tree::parse(text), check(text, &mut self.work)) {
            (Ok(_), Check::Refused(refusal)) => Err(format!("a tree, and refused: {refusal}")),
            (Ok(tree), _) => {
                self.tally.note_size(text, &tree);
                Ok(Some(tree))
            }
            (Err(theirs), Check::Refused(ours))
                if (theirs.number, theirs.line) == (ours.reason.number() as usize, ours.line as usize) =>
            {
                self.tally.refused[theirs.number] += 1;
                Ok(None)
            }
            (Err(theirs), ours) => Err(format!("{theirs:?}, and {ours:?}")),
        }
    }

    /// The first error of the original against the first fault of the library. Answers with the place in the
    /// report of the fault that the original names, with none where both accept the tree.
    pub fn compare_first(&mut self, text: &[u8], tree: &Tree, faults: &[Fault]) -> Compared<Option<usize>> {
        let first = check(text, &mut self.work);
        let Some(SemanticError { message, span }) = original::first_error(&tree.globals, &tree.body) else {
            self.tally.accepted += 1;
            let accepted = first == Check::Accepted && faults.is_empty();
            return if accepted { Ok(None) } else { Err(format!("no error, and {first:?}")) };
        };
        let kind = kind_of(&message);
        self.tally.first_faults[kind.number() as usize] += 1;
        let same_place = |record: Record| (record.kind, record.start, record.end) == (kind, span.start, span.end);
        if !matches!(first, Check::Faulty(record) if same_place(record)) {
            return Err(format!("{message} at {span:?}, and {first:?}"));
        }
        self.named(text, faults, &message).map(Some)
    }

    /// Which of the faults that the original may name first has this message; each one's message is built from
    /// its record as the library writes it.
    fn named(&mut self, text: &[u8], faults: &[Fault], message: &str) -> Compared<usize> {
        let candidates = may_be_first(faults);
        self.tally.several_captures += u64::from(candidates > 1);
        for (i, fault) in faults.iter().take(candidates).enumerate() {
            let written = self.message(text, i)?;
            if written != fault.message {
                return Err(format!("{written}, and from the record {}", fault.message));
            }
            if written == message {
                return Ok(i);
            }
        }
        Err(format!("{message}, and no fault of the report says so"))
    }

    /// All faults of a text that is not refused.
    pub fn faults(&mut self, text: &[u8]) -> Compared<Vec<Fault>> {
        let records = report(text, &mut self.work, &mut self.out).map_err(|why| format!("no report: {why}"))?;
        records.map(|record| fault(text, record)).collect()
    }

    /// The library's message of fault i.
    fn message(&mut self, text: &[u8], i: usize) -> Compared<&str> {
        message(text, &mut self.work, i, &mut self.message).map_err(|why| format!("no message {i}: {why}"))
    }
}

/// The fault of a record.
fn fault(text: &[u8], record: Record) -> Compared<Fault> {
    let (name, message) = (record.name.of(text), record.message(text));
    let (name, message) = name.zip(message).ok_or_else(|| format!("names are not in the text: {record:?}"))?;
    Ok(Fault {
        kind: record.kind,
        span: Span { start: record.start, end: record.end },
        name: String::from_utf8_lossy(name).into_owned(),
        message: message.to_string(),
    })
}

/// Takes away what the text does not hold: values, operators, and whether there is an `else` without
/// statements.
fn forget_values(body: &mut [StmtS]) {
    visit::stmts(body, &mut ForgetValues);
}

struct ForgetValues;

impl Visit for ForgetValues {
    fn stmt(&mut self, stmt: &mut StmtS) {
        if let Stmt::If { else_block, .. } = &mut stmt.0 {
            else_block.get_or_insert_with(Vec::new);
        }
    }

    fn expr(&mut self, expr: &mut ExprS) {
        match &mut expr.0 {
            Expr::Literal(value) => *value = Literal::None,
            Expr::Unary { op, .. } => *op = UnaryOp::Not,
            Expr::Binary { op, .. } => *op = BinaryOp::Add,
            _ => {}
        }
    }
}

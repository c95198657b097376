//! All trees of few lines over one name, `a`, or over the first few of `a`, `b` and `c`. A def, a method or a
//! lambda has no parameter or one; a method may also have `self` before.

use crate::compare::{Compared, Comparison};
use crate::numbers::Numbers;
use crate::random_tree::number_spans;
use original::parser::ast::{BinaryOp, Expr, ExprS, Literal, MethodDef, Stmt, StmtS, UnaryOp};
use original::types::Span;
use std::iter::once;
use std::slice::from_ref;

const NAMES: [&str; 3] = ["a", "b", "c"];

/// A condition and its block.
type Elif = (ExprS, Vec<StmtS>);

/// What is done with each part of a kind.
type Each<'a, T> = &'a mut dyn FnMut(T);

/// Every tree of up to so many lines after the first, over so many names: with no global, and with one, which
/// is a line, too.
pub fn compare_every(comparison: &mut Comparison, most_lines: usize, names: usize) -> Compared {
    let mut parts = Parts::over(&NAMES[..names.min(NAMES.len())]);
    let (mut rng, mut result) = (Numbers::new(0), Ok(()));
    for lines in 0..=most_lines {
        // up to the first difference
        let mut compare = |globals: &[String], mut body: Vec<StmtS>| {
            if result.is_ok() {
                number_spans(&mut body, &mut rng);
                result = comparison.compare_tree(globals, body);
            }
        };
        if lines > 0 {
            for name in &parts.names {
                each_list(&parts.stmts, lines - 1, &mut |body| compare(from_ref(name), body));
            }
        }
        // those of several statements; those of one, which are not among the parts yet
        each_list(&parts.stmts, lines, &mut |body| compare(&[], body));
        parts.each_stmt(lines, &mut |stmt| compare(&[], vec![stmt]));
        if lines < most_lines {
            parts.grow(lines);
        }
    }
    result
}

/// Every list of parts with so many lines in all. The parts are given by the number of their lines.
fn each_list<T: Clone>(parts: &[Vec<T>], lines: usize, each: Each<Vec<T>>) {
    extend_list(parts, lines, &mut Vec::new(), each);
}

/// Every list that starts with this one and has so many lines beside.
fn extend_list<T: Clone>(parts: &[Vec<T>], lines: usize, list: &mut Vec<T>, each: Each<Vec<T>>) {
    if lines == 0 {
        return each(list.clone());
    }
    for first in 1..parts.len().min(lines + 1) {
        for part in &parts[first] {
            list.push(part.clone());
            extend_list(parts, lines - first, list, each);
            list.pop();
        }
    }
}

/// Each of the one with each of the other.
fn pairs<'a, A, B>(firsts: &'a [A], seconds: &'a [B]) -> impl Iterator<Item = (&'a A, &'a B)> {
    firsts.iter().flat_map(move |first| seconds.iter().map(move |second| (first, second)))
}

fn spanned<T>(part: T) -> (T, Span) {
    (part, Span { start: 0, end: 0 })
}

/// All parts of a tree, by the number of their lines.
#[derive(Default)]
struct Parts {
    names: Vec<String>,
    /// No parameter, or one of the names.
    params: Vec<Vec<String>>,
    exprs: Vec<Vec<ExprS>>,
    stmts: Vec<Vec<StmtS>>,
    elifs: Vec<Vec<Elif>>,
    methods: Vec<Vec<MethodDef>>,
    attributes: Vec<Vec<(String, ExprS)>>,
}

impl Parts {
    /// No parts as yet, over these names.
    fn over(names: &[&str]) -> Self {
        let names: Vec<String> = names.iter().map(|name| name.to_string()).collect();
        let params = once(vec![]).chain(names.iter().map(|name| vec![name.clone()])).collect();
        Parts { names, params, ..Parts::default() }
    }

    /// Adds all parts of so many lines; those of fewer are there.
    fn grow(&mut self, lines: usize) {
        let (mut exprs, mut stmts, mut elifs, mut methods) = (vec![], vec![], vec![], vec![]);
        let mut attributes = vec![];
        if lines > 0 {
            self.each_expr(lines, &mut |expr| exprs.push(expr));
            self.each_stmt(lines, &mut |stmt| stmts.push(stmt));
            self.each_head(lines - 1, &mut |(condition, body)| elifs.push((condition.clone(), body)));
            self.each_method(lines, &mut |method| methods.push(method));
            let named = pairs(&self.names, &self.exprs[lines - 1]);
            attributes.extend(named.map(|(name, value)| (name.clone(), value.clone())));
        }
        self.exprs.push(exprs);
        self.stmts.push(stmts);
        self.elifs.push(elifs);
        self.methods.push(methods);
        self.attributes.push(attributes);
    }

    fn each_expr(&self, lines: usize, each: Each<ExprS>) {
        if lines == 1 {
            each(spanned(Expr::Literal(Literal::None)));
            self.names.iter().for_each(|name| each(spanned(Expr::Variable(name.clone()))));
        }
        each_list(&self.exprs, lines - 1, &mut |children| {
            match &children[..] {
                [only] => self.each_over_one(only, each),
                [left, right] => each_over_two(left, right, each),
                _ => {}
            }
            each_over_list(children, each);
        });
    }

    /// Every expression that has just one child.
    fn each_over_one(&self, only: &ExprS, each: Each<ExprS>) {
        let only = || Box::new(only.clone());
        each(spanned(Expr::Unary { op: UnaryOp::Not, expr: only() }));
        for name in &self.names {
            each(spanned(Expr::Attribute { object: only(), attr: name.clone() }));
        }
        for params in &self.params {
            each(spanned(Expr::Lambda { params: params.clone(), body: only() }));
        }
    }

    fn each_stmt(&self, lines: usize, each: Each<StmtS>) {
        if lines == 0 {
            return;
        }
        if lines == 1 {
            [Stmt::Break, Stmt::Continue, Stmt::Pass].into_iter().for_each(|stmt| each(spanned(stmt)));
        }
        for value in &self.exprs[lines - 1] {
            each(spanned(Stmt::Return(value.clone())));
            each(spanned(Stmt::Expr(value.clone())));
        }
        self.each_def(lines, each);
        self.each_assign(lines, each);
        self.each_loop(lines, each);
        self.each_if(lines, each);
        self.each_class(lines, each);
    }

    fn each_def(&self, lines: usize, each: Each<StmtS>) {
        each_list(&self.stmts, lines - 1, &mut |body| {
            for (name, params) in pairs(&self.names, &self.params) {
                each(spanned(Stmt::Def { name: name.clone(), params: params.clone(), body: body.clone() }));
            }
        });
    }

    fn each_assign(&self, lines: usize, each: Each<StmtS>) {
        for left in 1..lines.saturating_sub(1) {
            for (value, target) in pairs(&self.exprs[left], &self.exprs[lines - 1 - left]) {
                each(spanned(Stmt::Assign { target: target.clone(), value: value.clone() }));
            }
        }
    }

    fn each_loop(&self, lines: usize, each: Each<StmtS>) {
        self.each_head(lines - 1, &mut |(head, body)| {
            for name in &self.names {
                let (var, iterable) = (name.clone(), head.clone());
                each(spanned(Stmt::For { var, iterable, body: body.clone() }));
            }
            each(spanned(Stmt::While { condition: head.clone(), body }));
        });
    }

    fn each_if(&self, lines: usize, each: Each<StmtS>) {
        for head in 0..lines {
            self.each_head(head, &mut |(condition, then_block)| {
                self.each_rest_of_if(lines - 1 - head, &mut |(elif_blocks, else_block)| {
                    let (condition, then_block) = (condition.clone(), then_block.clone());
                    each(spanned(Stmt::If { condition, then_block, elif_blocks, else_block: Some(else_block) }));
                });
            });
        }
    }

    /// Every list of `elif` with an `else`, of so many lines in all.
    fn each_rest_of_if(&self, lines: usize, each: Each<(Vec<Elif>, Vec<StmtS>)>) {
        for left in 0..=lines {
            each_list(&self.elifs, left, &mut |elif_blocks| {
                each_list(&self.stmts, lines - left, &mut |else_block| each((elif_blocks.clone(), else_block)));
            });
        }
    }

    fn each_class(&self, lines: usize, each: Each<StmtS>) {
        for left in 0..lines {
            each_list(&self.methods, left, &mut |methods| {
                each_list(&self.attributes, lines - 1 - left, &mut |attributes| {
                    for name in &self.names {
                        let (name, methods, attributes) = (name.clone(), methods.clone(), attributes.clone());
                        each(spanned(Stmt::Class { name, methods, attributes }));
                    }
                });
            });
        }
    }

    fn each_method(&self, lines: usize, each: Each<MethodDef>) {
        each_list(&self.stmts, lines - 1, &mut |body| {
            for (name, params) in pairs(&self.names, &self.params) {
                let with_self = once("self".to_string()).chain(params.clone()).collect();
                each(MethodDef { name: name.clone(), params: params.clone(), body: body.clone() });
                each(MethodDef { name: name.clone(), params: with_self, body: body.clone() });
            }
        });
    }

    /// Every expression with a body, of so many lines in all.
    fn each_head<'a>(&'a self, lines: usize, each: Each<(&'a ExprS, Vec<StmtS>)>) {
        for head in 1..=lines {
            for condition in &self.exprs[head] {
                each_list(&self.stmts, lines - head, &mut |body| each((condition, body)));
            }
        }
    }
}

/// Every expression that has just two children.
fn each_over_two(left: &ExprS, right: &ExprS, each: Each<ExprS>) {
    let (left, right) = (|| Box::new(left.clone()), || Box::new(right.clone()));
    each(spanned(Expr::Binary { op: BinaryOp::Add, left: left(), right: right() }));
    each(spanned(Expr::Index { object: left(), index: right() }));
}

/// Every expression that has any number of children.
fn each_over_list(children: Vec<ExprS>, each: Each<ExprS>) {
    if let [callee, args @ ..] = &children[..] {
        each(spanned(Expr::Call { func_name: Box::new(callee.clone()), args: args.to_vec() }));
    }
    if children.len().is_multiple_of(2) {
        let pairs = children.chunks(2).map(|pair| (pair[0].clone(), pair[1].clone()));
        each(spanned(Expr::Dict(pairs.collect())));
    }
    each(spanned(Expr::Set(children.clone())));
    each(spanned(Expr::TreeSet(children.clone())));
    each(spanned(Expr::List(children.clone())));
    each(spanned(Expr::Tuple(children)));
}

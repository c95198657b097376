//! The original's tree as the tree text that the name check takes.
//!
//! For makers who have the original: put this file beside its modules (`mod tree_text;`) and hand the bytes
//! of `tree_text` to the check. It needs `parser::ast`, and of a span only that `start` and `end` print as
//! decimal numbers. Literals and operators are not in the text. What is over a limit is written all the same:
//! the check refuses it.

use crate::parser::ast::{Expr, ExprS, MethodDef, Stmt, StmtS};
use crate::types::Span;

/// A name with a tab or a line end in it, which would make the text that of another tree. No lexer gives one.
#[derive(Debug, PartialEq)]
pub struct NotOneField(pub String);

/// The text of a tree: names that are bound before the script, and its statements.
pub fn tree_text(globals: &[String], program: &[StmtS]) -> Result<String, NotOneField> {
    let mut writer = Writer { text: String::new() };
    writer.line("tree", &[], &[globals.len(), program.len()], &[])?;
    for name in globals {
        writer.line("global", &[name], &[], &[])?;
    }
    writer.stmts(program)?;
    Ok(writer.text)
}

type Written = Result<(), NotOneField>;

/// The text so far. Each function adds the lines of a part: its own line, then those of its children.
struct Writer {
    text: String,
}

impl Writer {
    /// A line without a span: its word, names, counts and parameters.
    fn line(&mut self, word: &str, names: &[&String], counts: &[usize], params: &[String]) -> Written {
        self.text.push_str(word);
        self.fields(names, counts, params)
    }

    /// A line with a span.
    fn spanned(&mut self, word: &str, span: &Span, names: &[&String], counts: &[usize], params: &[String]) -> Written {
        self.text.push_str(&format!("{word}\t{}\t{}", span.start, span.end));
        self.fields(names, counts, params)
    }

    /// The fields after the span, and the line end.
    fn fields(&mut self, names: &[&String], counts: &[usize], params: &[String]) -> Written {
        for name in names {
            self.name(name)?;
        }
        for count in counts {
            self.text.push_str(&format!("\t{count}"));
        }
        for param in params {
            self.name(param)?;
        }
        self.text.push('\n');
        Ok(())
    }

    fn name(&mut self, name: &str) -> Written {
        if name.contains(['\t', '\n']) {
            return Err(NotOneField(name.to_string()));
        }
        self.text.push('\t');
        self.text.push_str(name);
        Ok(())
    }

    fn stmts(&mut self, body: &[StmtS]) -> Written {
        body.iter().try_for_each(|stmt| self.stmt(stmt))
    }

    fn exprs(&mut self, exprs: &[ExprS]) -> Written {
        exprs.iter().try_for_each(|expr| self.expr(expr))
    }

    fn stmt(&mut self, (stmt, span): &StmtS) -> Written {
        match stmt {
            Stmt::Break => self.over("break", span, &[]),
            Stmt::Continue => self.over("continue", span, &[]),
            Stmt::Pass => self.over("pass", span, &[]),
            Stmt::Def { name, params, body } => {
                self.spanned("def", span, &[name], &[body.len()], params)?;
                self.stmts(body)
            }
            Stmt::Assign { target, value } => self.over("assign", span, &[value, target]),
            Stmt::If { condition, then_block, elif_blocks, else_block } => {
                let else_block = else_block.as_deref().unwrap_or_default();
                self.spanned("if", span, &[], &[then_block.len(), elif_blocks.len(), else_block.len()], &[])?;
                self.head(condition, then_block)?;
                for (condition, block) in elif_blocks {
                    self.line("elif", &[], &[block.len()], &[])?;
                    self.head(condition, block)?;
                }
                self.stmts(else_block)
            }
            Stmt::While { condition, body } => {
                self.spanned("while", span, &[], &[body.len()], &[])?;
                self.head(condition, body)
            }
            Stmt::For { var, iterable, body } => {
                self.spanned("for", span, &[var], &[body.len()], &[])?;
                self.head(iterable, body)
            }
            Stmt::Return(expr) => self.over("return", span, &[expr]),
            Stmt::Expr(expr) => self.over("expr", span, &[expr]),
            Stmt::Class { name, methods, attributes } => {
                self.spanned("class", span, &[name], &[methods.len(), attributes.len()], &[])?;
                self.methods(methods)?;
                self.attributes(attributes)
            }
        }
    }

    /// A condition or an iterable, and the block under it.
    fn head(&mut self, head: &ExprS, body: &[StmtS]) -> Written {
        self.expr(head)?;
        self.stmts(body)
    }

    fn methods(&mut self, methods: &[MethodDef]) -> Written {
        methods.iter().try_for_each(|MethodDef { name, params, body }| {
            self.line("method", &[name], &[body.len()], params)?;
            self.stmts(body)
        })
    }

    fn attributes(&mut self, attributes: &[(String, ExprS)]) -> Written {
        attributes.iter().try_for_each(|(name, value)| {
            self.line("attr", &[name], &[], &[])?;
            self.expr(value)
        })
    }

    /// A line with nothing but its span, and its children.
    fn over(&mut self, word: &str, span: &Span, children: &[&ExprS]) -> Written {
        self.spanned(word, span, &[], &[], &[])?;
        children.iter().try_for_each(|child| self.expr(child))
    }

    /// A line with a count and its children.
    fn several(&mut self, word: &str, span: &Span, exprs: &[ExprS]) -> Written {
        self.spanned(word, span, &[], &[exprs.len()], &[])?;
        self.exprs(exprs)
    }

    fn expr(&mut self, (expr, span): &ExprS) -> Written {
        match expr {
            Expr::Literal(_) => self.over("lit", span, &[]),
            Expr::Variable(name) => self.spanned("var", span, &[name], &[], &[]),
            Expr::Unary { expr, .. } => self.over("un", span, &[expr]),
            Expr::Binary { left, right, .. } => self.over("bin", span, &[left, right]),
            Expr::Index { object, index } => self.over("index", span, &[object, index]),
            Expr::Call { func_name, args } => {
                self.spanned("call", span, &[], &[args.len()], &[])?;
                self.expr(func_name)?;
                self.exprs(args)
            }
            Expr::Attribute { object, attr } => {
                self.spanned("get", span, &[attr], &[], &[])?;
                self.expr(object)
            }
            Expr::List(elements) => self.several("list", span, elements),
            Expr::Tuple(elements) => self.several("tuple", span, elements),
            Expr::Set(elements) => self.several("set", span, elements),
            Expr::TreeSet(elements) => self.several("treeset", span, elements),
            Expr::Dict(pairs) => {
                self.spanned("dict", span, &[], &[pairs.len()], &[])?;
                pairs.iter().try_for_each(|(key, value)| {
                    self.expr(key)?;
                    self.expr(value)
                })
            }
            Expr::Lambda { params, body } => {
                self.spanned("lambda", span, &[], &[], params)?;
                self.expr(body)
            }
        }
    }
}

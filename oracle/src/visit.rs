//! Every statement and expression of a tree, in the order of their lines, each before what stands under it.

use original::parser::ast::{Expr, ExprS, Stmt, StmtS};

/// What is done at each statement and each expression.
pub trait Visit {
    fn stmt(&mut self, _stmt: &mut StmtS) {}
    fn expr(&mut self, _expr: &mut ExprS) {}
}

/// Visits statements, and all that stands under them.
pub fn stmts(body: &mut [StmtS], visit: &mut dyn Visit) {
    body.iter_mut().for_each(|part| stmt(part, visit));
}

fn stmt(part: &mut StmtS, visit: &mut dyn Visit) {
    visit.stmt(part);
    match &mut part.0 {
        Stmt::Break | Stmt::Continue | Stmt::Pass => {}
        Stmt::Def { body, .. } => stmts(body, visit),
        Stmt::Assign { target, value } => {
            expr(value, visit);
            expr(target, visit);
        }
        Stmt::If { condition, then_block, elif_blocks, else_block } => {
            expr(condition, visit);
            stmts(then_block, visit);
            for (condition, block) in elif_blocks {
                expr(condition, visit);
                stmts(block, visit);
            }
            stmts(else_block.as_deref_mut().unwrap_or_default(), visit);
        }
        Stmt::While { condition: head, body } | Stmt::For { iterable: head, body, .. } => {
            expr(head, visit);
            stmts(body, visit);
        }
        Stmt::Return(value) | Stmt::Expr(value) => expr(value, visit),
        Stmt::Class { methods, attributes, .. } => {
            methods.iter_mut().for_each(|method| stmts(&mut method.body, visit));
            attributes.iter_mut().for_each(|(_, value)| expr(value, visit));
        }
    }
}

/// Visits an expression, and all that stands under it.
pub fn expr(part: &mut ExprS, visit: &mut dyn Visit) {
    visit.expr(part);
    match &mut part.0 {
        Expr::Literal(_) | Expr::Variable(_) => {}
        Expr::Unary { expr: only, .. } | Expr::Attribute { object: only, .. } | Expr::Lambda { body: only, .. } => {
            expr(only, visit);
        }
        Expr::Binary { left: first, right: second, .. } | Expr::Index { object: first, index: second } => {
            expr(first, visit);
            expr(second, visit);
        }
        Expr::Call { func_name, args } => {
            expr(func_name, visit);
            exprs(args, visit);
        }
        Expr::List(parts) | Expr::Tuple(parts) | Expr::Set(parts) | Expr::TreeSet(parts) => exprs(parts, visit),
        Expr::Dict(pairs) => pairs.iter_mut().for_each(|(key, value)| {
            expr(key, visit);
            expr(value, visit);
        }),
    }
}

fn exprs(parts: &mut [ExprS], visit: &mut dyn Visit) {
    parts.iter_mut().for_each(|part| expr(part, visit));
}

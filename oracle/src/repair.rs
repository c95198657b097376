//! A tree changed so that given faults go away and no other comes or goes: a faulty read becomes a literal, a
//! captured name a literal wherever the lambda reads it, a refused target an empty tuple. A method without
//! `self` gets it, which may take further faults away.

use crate::fault::Fault;
use crate::visit::{self, Visit};
use original::parser::ast::{Expr, ExprS, Literal, MethodDef, Stmt, StmtS};
use original::text_tree::MOST_PARAMS;
use serduzhap::Kind;
use std::collections::HashMap;

/// What a faulty read becomes.
const NOTHING: Expr = Expr::Literal(Literal::None);

/// Repairs these faults. Each span of the tree has to start at a number of its own.
pub fn repair(body: &mut [StmtS], faults: &[Fault]) {
    let mut starting_at: HashMap<u32, Vec<&Fault>> = HashMap::new();
    for fault in faults {
        starting_at.entry(fault.span.start).or_default().push(fault);
    }
    visit::stmts(body, &mut Repair { starting_at });
}

struct Repair<'a> {
    /// The faults, by the start of their spans.
    starting_at: HashMap<u32, Vec<&'a Fault>>,
}

impl Visit for Repair<'_> {
    fn stmt(&mut self, stmt: &mut StmtS) {
        let Stmt::Class { methods, .. } = &mut stmt.0 else { return };
        for fault in self.starting_at.get(&stmt.1.start).into_iter().flatten() {
            if fault.kind == Kind::MethodWithoutSelf {
                give_self(methods, &fault.name);
            }
        }
    }

    fn expr(&mut self, expr: &mut ExprS) {
        for fault in self.starting_at.get(&expr.1.start).into_iter().flatten() {
            match (&mut expr.0, fault.kind) {
                (read, Kind::UndefinedVariable | Kind::UnboundVariable) => *read = NOTHING,
                (Expr::Call { func_name, .. }, Kind::UndefinedFunction | Kind::UnboundFunction) => {
                    func_name.0 = NOTHING
                }
                (Expr::Lambda { body, .. }, Kind::UndefinedCapture | Kind::UnboundCapture) => {
                    visit::expr(body, &mut ForgetName { name: &fault.name });
                }
                (target, Kind::InvalidTarget) => *target = Expr::Tuple(Vec::new()),
                _ => panic!("no place of kind {:?}", fault.kind),
            }
        }
    }
}

/// The first method of this name that lacks `self` gets it; a last parameter that is one too many goes.
fn give_self(methods: &mut [MethodDef], name: &str) {
    let lacks_self = |method: &MethodDef| method.params.first().is_none_or(|first| first != "self");
    let lacking = methods.iter_mut().find(|method| method.name == name && lacks_self(method));
    let params = &mut lacking.expect("a method without self").params;
    params.insert(0, "self".to_string());
    params.truncate(MOST_PARAMS);
}

/// Makes a literal of each read of a name.
struct ForgetName<'a> {
    name: &'a str,
}

impl Visit for ForgetName<'_> {
    fn expr(&mut self, expr: &mut ExprS) {
        if matches!(&expr.0, Expr::Variable(name) if name == self.name) {
            expr.0 = NOTHING;
        }
    }
}

//! The Rust original's name pass as a crate: its semantic/mod.rs, semantic/scope.rs, parser/ast.rs and
//! builtins.rs as they are, and stand-ins for the rest that they lean on. With it the two ways between its
//! trees and the tree text.
//!
//! The four files are not part of this repository: build.rs has them from the folder that ORIGINAL_SRC names.

mod stand_ins;
pub mod text_tree;
pub mod tree_text;

pub use stand_ins::{types, vm};

// The original's files stay as they are, so what clippy would change in them is allowed.

#[allow(clippy::all)]
pub mod builtins {
    include!(concat!(env!("OUT_DIR"), "/builtins.rs"));
}

#[allow(clippy::all)]
pub mod parser {
    pub mod ast {
        include!(concat!(env!("OUT_DIR"), "/parser/ast.rs"));
    }
}

#[allow(clippy::all)]
pub mod semantic {
    include!(concat!(env!("OUT_DIR"), "/semantic/mod.rs"));
}

/// The first error of the name pass, if it has one: the pass stops there.
pub fn first_error(globals: &[String], program: &[parser::ast::StmtS]) -> Option<semantic::SemanticError> {
    semantic::analyze_with_globals(program, globals).err()
}

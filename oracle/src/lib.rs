//! The built library held against the Rust original, tree by tree. main.rs has the commands.
//!
//! Trees come from [`random_tree`] and [`every_tree`], texts that are no trees from [`damage`]. A tree goes
//! through both in [`compare`], fault by fault with the help of [`repair`]; a damaged text goes through every
//! call in [`guarded`], each buffer on [`pages`] of its own. [`vectors`] writes the original's answers down
//! for the gate.

pub mod compare;
pub mod damage;
pub mod every_tree;
pub mod fault;
pub mod guarded;
pub mod numbers;
pub mod pages;
pub mod random_tree;
pub mod repair;
pub mod tally;
pub mod vectors;
pub mod visit;

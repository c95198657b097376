//! What the benchmarks in benches/ are made of: the texts that are timed, the clock, the sides that are timed
//! beside each other, the measure of the stack, and the entry of the reader. bench/run.sh builds and runs them.

pub mod flat_script;
pub mod many_names;
pub mod modules;
pub mod reader;
pub mod script;
pub mod sides;
pub mod stack;
pub mod table;
pub mod timing;
pub mod worst_trees;

//! Times `check` beside the Rust original's name pass on the trees that take it longest.

use bench::sides::Accepted;
use bench::table::{duration, grouped, print_head, print_row, ratio};
use bench::worst_trees::worst_trees;

const RUNS: usize = 5;

fn main() {
    print_head(&["tree", "lines", "bytes", "check", "pass alone"]);
    for (title, text) in worst_trees() {
        let input = Accepted::new(title, text);
        let times = input.times(RUNS, 1);
        print_row(&[
            title.to_string(),
            grouped(input.tree.lines),
            grouped(input.text.len()),
            duration(times.check),
            format!("{}, {}", duration(times.pass), ratio(times.pass, times.check)),
        ]);
    }
}

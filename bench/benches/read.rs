//! Times the reader beside a plain Rust parser of the same text into boxed trees, in one process on one
//! input.

use bench::flat_script::flat_script;
use bench::many_names::{colliding_globals, globals};
use bench::reader::read;
use bench::stack::stack_of_reader;
use bench::timing::best;
use original::text_tree;
use serduzhap::WORK;
use std::hint::black_box;

fn main() {
    let script = flat_script(3050);
    let short = format!("tree\t0\t4096\n{}", "pass\t0\t1\n".repeat(4096));
    compare("(a) a script, some 3,000 lines", &script, 300);
    compare("(b) 4,096 short lines", short.as_bytes(), 300);
    compare("(c) a script of 100 lines", &flat_script(100), 10000);
    compare("4,096 different names", &globals(4096, |i| format!("n{i}")), 300);
    compare("4,096 names, a shared prefix", &globals(4096, |i| format!("abc_{i}")), 300);
    compare("4,096 equal names", &globals(4096, |_| "needle".into()), 300);
    compare("4,096 names of one hash", &colliding_globals(4096, "c"), 3);
    compare("920 names of 63 bytes, one hash", &colliding_globals(920, &"c".repeat(58)), 3);

    let deep = format!("tree\t0\t1\nexpr\t0\t1\n{}lit\t0\t1\n", "un\t0\t1\n".repeat(62));
    let (stack, deep_stack) = (stack_of_reader(&script), stack_of_reader(deep.as_bytes()));
    println!("stack: {stack} bytes for the script, {deep_stack} bytes at depth 64");
}

/// One text through both readers, which have to agree on it; each run has so many calls.
fn compare(title: &str, text: &[u8], calls: u32) {
    let mut work = vec![u32::MAX; WORK];
    let lines = agreed(title, text, &mut work) + 1;
    let ours = best(calls, || read(black_box(text), &mut work).lines);
    let theirs = best(calls, || text_tree::parse(black_box(text)).map_or(0, |tree| tree.lines));
    let (length, times) = (text.len(), theirs / ours);
    let (ours_a_byte, theirs_a_byte, micros) = (ours / length as f64, theirs / length as f64, ours / 1000.0);
    println!(
        "{title:<34} {length:>6} bytes {lines:>5} lines | {ours_a_byte:>6.2} ns a byte {micros:>6.1} µs \
         | boxed {theirs_a_byte:>6.2} ns a byte | {times:.1} times faster"
    );
}

/// How many lines follow the first, by both readers.
fn agreed(title: &str, text: &[u8], work: &mut [u32]) -> usize {
    let numbers = read(text, work);
    let ours = (numbers.refusal, numbers.line, numbers.lines, numbers.globals);
    let theirs = match text_tree::parse(text) {
        Ok(tree) => (0, 0, tree.lines, tree.globals.len()),
        Err(refusal) => (refusal.number, refusal.line, 0, 0),
    };
    assert_eq!(ours, theirs, "{title}");
    numbers.lines
}

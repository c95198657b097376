//! Times `check` beside the name pass of the Rust original, in one process on one input: from the text
//! against a plain parser and the pass, and against the pass alone on a tree that is ready.

use bench::script::script;
use bench::sides::passes;
use bench::stack::stacks_of_calls;
use bench::timing::best;
use original::text_tree;
use serduzhap::{check, Check, STACK, WORK};
use std::hint::black_box;

fn main() {
    compare("a script of 100 lines", &script(130), 10000);
    compare("a script of 1,000 lines", &script(1030), 1000);
    compare("a script of 3,000 lines", &script(3030), 300);
    compare("the longest script that fits", &script(3460), 300);
    compare("64 deep, functions in functions", &nested_functions(63), 10000);

    print_stacks("the script of 3,000 lines", &script(3000));
    print_stacks("64 deep, functions in functions", &nested_functions(63));
    print_stacks("64 deep, lambdas in lambdas", &nested_lambdas(62, "lit\t0\t1\n"));
    print_stacks("the same with a fault", &nested_lambdas(62, "var\t0\t1\ty\n"));
}

/// The stack of each call on a text; none takes more than the header says.
fn print_stacks(title: &str, text: &[u8]) {
    let stacks @ [check, report, message, name] = stacks_of_calls(text);
    assert!(stacks.iter().all(|&stack| stack <= STACK), "{title}");
    println!(
        "stack, {title:<31} | check {check:>5} bytes | report {report:>5} | message {message:>5} | name {name:>5}"
    );
}

/// One text through check, parser and pass, which have to agree on it; each run has so many calls.
fn compare(title: &str, text: &[u8], calls: u32) {
    let mut work = vec![u32::MAX; WORK];
    let tree = text_tree::parse(text).unwrap_or_else(|refusal| panic!("{title}: {refusal:?}"));
    let mut accepts = |text: &[u8]| check(text, &mut work) == Check::Accepted;
    assert_eq!(accepts(text), passes(&tree), "{title}");
    let ours = best(calls, || usize::from(accepts(black_box(text)))) / 1000.0;
    let parse_and_pass = || text_tree::parse(black_box(text)).map_or(0, |tree| usize::from(passes(&tree)));
    let both = best(calls, parse_and_pass) / 1000.0;
    let alone = best(calls, || usize::from(passes(black_box(&tree)))) / 1000.0;
    let (length, lines) = (text.len(), tree.lines + 1);
    println!(
        "{title:<36} {length:>6} bytes {lines:>5} lines | check {ours:>8.1} µs \
         | parse and pass {both:>8.1} µs, {:>4.1} times | pass alone {alone:>8.1} µs, {:>4.1} times",
        both / ours,
        alone / ours
    );
}

/// A function in a function in a function, and so on.
fn nested_functions(count: usize) -> Vec<u8> {
    let functions: String = (0..count).map(|i| format!("def\t0\t1\tf{i}\t1\tp{i}\n")).collect();
    format!("tree\t0\t1\n{functions}pass\t0\t1\n").into_bytes()
}

/// A lambda in a lambda in a lambda, and so on, around an expression of one line.
fn nested_lambdas(count: usize, inmost: &str) -> Vec<u8> {
    format!("tree\t0\t1\nexpr\t0\t1\n{}{inmost}", "lambda\t0\t1\tx\n".repeat(count)).into_bytes()
}

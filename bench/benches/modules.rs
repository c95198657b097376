//! Times `check` beside the Rust original on Python's own modules, as bench/modules.py turns them into tree
//! texts, in classes by the number of their lines. Before that, both have to answer alike.

use bench::modules::{modules, Module};
use bench::sides::{agreed, Accepted, Times};
use bench::table::{grouped, print_head, print_row, ratio};
use oracle::compare::Comparison;
use std::ops::RangeInclusive;

const RUNS: usize = 25;
const CALLS: usize = 4;

/// The classes, by the lines after the first.
const CLASSES: [(&str, RangeInclusive<usize>); 4] = [
    ("small: up to 300 lines", 0..=300),
    ("about 900: 600 to 1,200 lines", 600..=1200),
    ("large: 2,000 lines and more", 2000..=4096),
    ("all, those between as well", 0..=4096),
];

/// The lines and the bytes of a module, and how long the sides take for it.
struct Timed {
    lines: usize,
    bytes: usize,
    times: Times,
}

fn main() {
    let (as_read, accepted) = (modules("as_read"), modules("accepted"));
    if accepted.is_empty() {
        return println!("no modules are timed: python3 bench/modules.py target/bench_modules makes them");
    }
    compare(as_read);
    let timed: Vec<Timed> = accepted.into_iter().map(|(name, text)| timed(&name, text)).collect();
    println!("without faults: {} texts, accepted by both", timed.len());
    print_head(&[
        "modules",
        "number",
        "bytes",
        "check, ns a byte",
        "reader, ns a byte",
        "parser and pass",
        "pass alone",
    ]);
    for (title, lines) in CLASSES {
        let class: Vec<&Timed> = timed.iter().filter(|module| lines.contains(&module.lines)).collect();
        print_class(title, &class);
    }
}

/// The modules as they were read: most have a fault, and both have to name the same one first.
fn compare(as_read: Vec<Module>) {
    let mut comparison = Comparison::default();
    for (name, text) in as_read {
        agreed(&mut comparison, &text).unwrap_or_else(|what| panic!("{name}: {what}"));
        comparison.tally.texts += 1;
    }
    println!("as read: {} texts, the same answers: {}", comparison.tally.texts, comparison.tally);
}

fn timed(name: &str, text: Vec<u8>) -> Timed {
    let input = Accepted::new(name, text);
    Timed { lines: input.tree.lines, bytes: input.text.len(), times: input.times(RUNS, CALLS) }
}

fn print_class(title: &str, class: &[&Timed]) {
    let bytes: usize = class.iter().map(|module| module.bytes).sum();
    let times: Times = class.iter().map(|module| module.times).sum();
    let a_byte = |nanos: f64| format!("{:.2}", nanos / bytes as f64);
    print_row(&[
        title.to_string(),
        grouped(class.len()),
        grouped(bytes),
        a_byte(times.check),
        a_byte(times.reader),
        ratio(times.parser_and_pass, times.check),
        ratio(times.pass, times.check),
    ]);
}

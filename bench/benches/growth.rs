//! Times `check` on the same scripts at 1, 2, 4 and 8 times their lines: Python's own modules of about 400 lines
//! with their statements repeated, and generated scripts. What takes as long for a byte of each is linear.

use bench::modules::modules;
use bench::script::script;
use bench::sides::{Accepted, Times};
use bench::table::{grouped, print_head, print_row, ratio};
use original::text_tree::{LONGEST_TEXT, MOST_LINES};

/// The runs for each of the modules, which are many, and for a generated script; the calls in each run.
const RUNS_OF_MANY: usize = 25;
const RUNS_OF_ONE: usize = 250;
const CALLS: usize = 4;

/// How many times the lines.
const STEPS: [usize; 4] = [1, 2, 4, 8];
const LAST_STEP: usize = 8;
const TITLES: [&str; 4] = ["once", "twice", "4 times", "8 times"];

/// A module that is repeated has more lines than this, and a generated script about so many at first.
const FEWEST_LINES: usize = 350;
const GENERATED_LINES: usize = 400;

/// The lines and the bytes of a script at one step, and how long the sides take for it.
struct Timed {
    lines: usize,
    bytes: usize,
    times: Times,
}

/// A script at each step.
type Grown = [Timed; STEPS.len()];

fn main() {
    let grown = |text: Vec<u8>| STEPS.map(|step| timed(repeated(&text, step), RUNS_OF_MANY));
    let repeated: Vec<Grown> = to_repeat().into_iter().map(grown).collect();
    let generated = STEPS.map(|step| timed(script(GENERATED_LINES * step + 40), RUNS_OF_ONE));
    print_head(&["scripts", "lines", "bytes", "check, ns a byte", "parser and pass", "pass alone"]);
    if !repeated.is_empty() {
        print_growth(&format!("{} modules", repeated.len()), &repeated);
    }
    print_growth("generated", &[generated]);
}

/// The modules of about 400 lines: those that are within the limits when they are repeated.
fn to_repeat() -> Vec<Vec<u8>> {
    let mut found: Vec<Vec<u8>> = modules("accepted").into_iter().map(|(_, text)| text).collect();
    found.retain(|text| {
        let lines = text.iter().filter(|&&byte| byte == b'\n').count();
        lines > FEWEST_LINES && lines * LAST_STEP <= MOST_LINES && text.len() * LAST_STEP <= LONGEST_TEXT
    });
    found
}

/// A script with its statements so many times, and its globals once.
fn repeated(text: &[u8], times: usize) -> Vec<u8> {
    let text = str::from_utf8(text).expect("a tree text");
    let (head, rest) = text.split_once('\n').expect("a first line");
    let counts: Vec<usize> = head.split('\t').skip(1).map(|field| field.parse().expect("a count")).collect();
    let globals: usize = rest.split_inclusive('\n').take(counts[0]).map(str::len).sum();
    let (globals, statements) = rest.split_at(globals);
    format!("tree\t{}\t{}\n{globals}{}", counts[0], counts[1] * times, statements.repeat(times)).into_bytes()
}

fn timed(text: Vec<u8>, runs: usize) -> Timed {
    let input = Accepted::new("a script that grows", text);
    Timed { lines: input.tree.lines, bytes: input.text.len(), times: input.times(runs, CALLS) }
}

/// A row for each step, over all of these scripts.
fn print_growth(title: &str, scripts: &[Grown]) {
    for (step, step_title) in TITLES.iter().enumerate() {
        let bytes: usize = scripts.iter().map(|grown| grown[step].bytes).sum();
        let times: Times = scripts.iter().map(|grown| grown[step].times).sum();
        print_row(&[
            format!("{title}, {step_title}"),
            grouped(scripts.iter().map(|grown| grown[step].lines).sum()),
            grouped(bytes),
            format!("{:.2}", times.check / bytes as f64),
            ratio(times.parser_and_pass, times.check),
            ratio(times.pass, times.check),
        ]);
    }
}

//! The trees that take `check` longest, as far as they are known: functions one after the other in a function,
//! and names that all share one hash. None has a fault.

use crate::many_names::{colliding_globals, colliding_names};
use original::text_tree::MOST_PARAMS;

/// Each tree, with its title.
pub fn worst_trees() -> Vec<(&'static str, Vec<u8>)> {
    vec![
        ("4,095 empty functions in a function", empty_functions(4095)),
        ("1,023 functions in a function, a read after each", functions_and_reads(1023)),
        ("682 functions in a function, each binds the name read after it", functions_that_bind(682)),
        ("4,096 names of one hash", colliding_globals(4096, "c")),
        ("4,080 functions in one with 16 parameters, all names of one hash", functions_of_one_hash(4080)),
        ("1,900 names of one hash, 370 times 16 of them as parameters", parameters_of_one_hash(1900, 370)),
    ]
}

/// A function `f` with these parameters around so many statements.
fn function_around(params: &[String], count: usize, statements: &str) -> Vec<u8> {
    let params: String = params.iter().map(|param| format!("\t{param}")).collect();
    format!("tree\t0\t1\ndef\t0\t1\tf\t{count}{params}\n{statements}").into_bytes()
}

fn empty_functions(count: usize) -> Vec<u8> {
    function_around(&[], count, &"def\t0\t1\tg\t0\n".repeat(count))
}

/// Functions with a statement each, and after each a read of the outer one's parameter.
fn functions_and_reads(count: usize) -> Vec<u8> {
    let one = |i| format!("def\t0\t1\tf{i}\t1\npass\t0\t1\nexpr\t0\t1\nvar\t0\t1\tx\n");
    let statements: String = (0..count).map(one).collect();
    function_around(&["x".into()], 2 * count, &statements)
}

/// Functions that each bind a name of their own which is the outer one's parameter, too, and after each a read
/// of that parameter.
fn functions_that_bind(count: usize) -> Vec<u8> {
    let one = "def\t0\t1\tg\t1\nassign\t0\t1\nlit\t0\t1\nvar\t0\t1\tx\nexpr\t0\t1\nvar\t0\t1\tx\n";
    function_around(&["x".into()], 2 * count, &one.repeat(count))
}

/// Empty functions in one with as many parameters as there may be.
fn functions_of_one_hash(count: usize) -> Vec<u8> {
    let names = colliding_names(count + MOST_PARAMS, "");
    let (functions, params) = names.split_at(count);
    let statements: String = functions.iter().map(|name| format!("def\t0\t1\t{name}\t0\n")).collect();
    function_around(params, count, &statements)
}

/// So many globals, and so many empty functions that have the first of them as parameters.
fn parameters_of_one_hash(globals: usize, functions: usize) -> Vec<u8> {
    let names = colliding_names(globals, "");
    let lines: String = names.iter().map(|name| format!("global\t{name}\n")).collect();
    let function = format!("def\t0\t1\tf\t0\t{}\n", names[..MOST_PARAMS].join("\t"));
    format!("tree\t{globals}\t{functions}\n{lines}{}", function.repeat(functions)).into_bytes()
}

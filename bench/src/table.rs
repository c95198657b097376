//! Rows of a table as docs/SPEED.md has them.

/// Prints the head of a table.
pub fn print_head(cells: &[&str]) {
    println!("| {} |\n|{}", cells.join(" | "), "---|".repeat(cells.len()));
}

/// Prints a row.
pub fn print_row(cells: &[String]) {
    println!("| {} |", cells.join(" | "));
}

/// A number with commas between its thousands.
pub fn grouped(number: usize) -> String {
    if number < 1000 {
        return number.to_string();
    }
    format!("{},{:03}", grouped(number / 1000), number % 1000)
}

/// How many times as long the other side takes.
pub fn ratio(theirs: f64, ours: f64) -> String {
    match theirs / ours {
        times @ ..0.1 => format!("{times:.3} times"),
        times => format!("{times:.2} times"),
    }
}

/// The time of a call, which is given in ns.
pub fn duration(nanos: f64) -> String {
    match nanos {
        ..1e6 => format!("{:.0} µs", nanos / 1e3),
        ..1e9 => format!("{:.1} ms", nanos / 1e6),
        _ => format!("{:.2} s", nanos / 1e9),
    }
}

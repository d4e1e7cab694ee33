//! Compares the proved float, vector, plane and trace functions with Rust's own f32 and the published
//! Rust. `oracle/run leaves` and `oracle/run root-time` build and start it.

mod compare;
mod proved;
mod root_time;
mod tally;
mod traces;
#[cfg(test)]
mod wrong;

use std::process::exit;

fn stop(message: &str) -> ! {
    eprintln!("{message}");
    exit(2);
}

/// The number behind a name on the command line.
fn number(arguments: &[String], name: &str, usual: u64) -> u64 {
    let Some(at) = arguments.iter().position(|argument| argument == name) else { return usual };
    match arguments.get(at + 1).and_then(|number| number.parse().ok()) {
        Some(number) => number,
        None => stop(&format!("{name} takes a number")),
    }
}

fn main() {
    let arguments: Vec<String> = std::env::args().skip(1).collect();
    let plan = compare::Plan {
        quick: arguments.iter().any(|argument| argument == "--quick"),
        threads: number(&arguments, "--threads", 1).clamp(1, 64),
        seed: number(&arguments, "--seed", 1),
    };
    let equal = match arguments.first().map(String::as_str) {
        Some("leaves") => compare::run(&plan),
        Some("root-time") => root_time::run(),
        _ => stop("leaves: leaves or root-time"),
    };
    if !equal {
        exit(1);
    }
}

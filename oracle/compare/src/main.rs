//! Compares the calls of the proved library with the published Rust. `oracle/run` builds and starts it.
//!
//! - `calls`: the library's calls, what is asked of them, and the Rust's answers in their words
//! - `cases`: maps made for the comparisons
//! - `paper`: the papers read as a plain program
//! - `modes`: the comparisons
//! - `report`: what a run says
//! - `times`: the benchmark

mod calls;
mod cases;
mod modes;
mod paper;
mod report;
mod times;

use std::process::exit;

use modes::*;
use times::{bench, textures as texture_times};

/// `load` reserves room for every record that a file names.
#[global_allocator]
static ROOM: richter::room::Room = richter::room::Room;

/// What stands behind the mode on the command line.
struct Arguments(Vec<String>);

impl Arguments {
    fn has(&self, name: &str) -> bool {
        self.0.iter().any(|argument| argument == name)
    }

    fn number(&self, name: &str, usual: u64) -> u64 {
        let Some(at) = self.0.iter().position(|argument| argument == name) else { return usual };
        match self.0.get(at + 1).and_then(|number| number.parse().ok()) {
            Some(number) => number,
            None => wrong(&format!("{name} takes a number")),
        }
    }

    /// What stands behind a name.
    fn text(&self, name: &str) -> Option<&str> {
        let at = self.0.iter().position(|argument| argument == name)?;
        self.0.get(at + 1).map(String::as_str)
    }

    /// A tenth of the usual cases for a quick run.
    fn plan(&self, usual: u64) -> report::board::Plan {
        let usual = if self.has("--quick") { usual / 10 } else { usual };
        report::board::Plan {
            cases: self.number("--cases", usual),
            from: self.number("--from", 0),
            seed: self.number("--seed", 1),
            quick: self.has("--quick"),
        }
    }

    /// The name of a file, which comes first.
    fn path(&self) -> &str {
        match self.0.first() {
            Some(path) if !path.starts_with("--") => path,
            _ => wrong("the mode takes a file's name"),
        }
    }
}

fn wrong(message: &str) -> ! {
    eprintln!("{message}");
    exit(2);
}

/// Runs a mode; true if nothing differed.
fn run(mode: &str, given: &Arguments) -> bool {
    match mode {
        "all" => all::run(&given.plan(200_000_000)),
        "records" => records::run(&given.plan(5_000)),
        "hand-made" => hand_made::run(&given.plan(10_000)),
        "walks" => walks::run(&given.plan(10_000)),
        "tree-check" => tree::run(&given.plan(20_000)),
        "accept" => accept::run(&given.plan(10_000)),
        "boxes" => boxes::run(&given.plan(10_000)),
        "sizes" => bodies::run(&given.plan(10_000)),
        "points" => points::run(&given.plan(10_000)),
        "line" => line::run(&given.plan(10_000)),
        #[cfg(feature = "peer")]
        "line-peer" => line_peer::run(&given.plan(3_000)),
        #[cfg(feature = "peer")]
        "real" => real::run(given.path(), &given.plan(100)),
        "order" => order::run(&given.plan(10_000)),
        "texture-times" => texture_times::run(),
        "textures" => textures::run(&given.plan(20_000)),
        "pvs" => pvs::run(&given.plan(20_000)),
        "team" => team::run(&given.plan(10_000)),
        "loads" => loads::run(&given.plan(5_000)),
        "place" => place::run(&given.plan(5_000)),
        "made" => made::run(&given.plan(10_000)),
        "sky" => sky::run(&given.plan(5_000)),
        "sample" => sample::run(given.path(), given.number("--seed", 1), !given.has("--no-nodes")),
        "bench" => bench::run(&given.plan(30), given.text("--maps")),
        "bench-real" => bench::run_real(&given.plan(30), given.text("--maps")),
        "bench-points" => bench::run_points(&given.plan(30), given.text("--maps")),
        _ => wrong("compare: a mode of oracle/run"),
    }
}

fn main() {
    let mut arguments = std::env::args().skip(1);
    let mode = arguments.next().unwrap_or_default();
    if !run(&mode, &Arguments(arguments.collect())) {
        exit(1);
    }
}

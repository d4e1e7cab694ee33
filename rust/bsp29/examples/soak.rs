//! Asks made-up maps everything, seed after seed, for a time that it is told.
//!
//!     soak SECONDS [SEED]
//!
//! Each seed is one map of 1 to 500 nodes. It is written into a kept buffer, loaded, accepted, and then
//! asked for its trees, contents, leaves, traces, whole-line traces, many points at once and visibility,
//! at points and along segments drawn from the seed, some of them with a NaN or an infinity. A line of
//! progress comes every ten seconds (every tenth of the time where that is less): maps, calls, answered,
//! refused, resident memory. It ends with a summary, and with status 1 if a call was refused, 2 where the
//! arguments are no numbers. `examples/run` runs it for a second. An hour of it, in `rust/bsp29`:
//!
//!     cargo run --release --example soak 3600

use bsp29::{made_up_into, Hull, Map, NodeTable, Refusal};
use std::process::ExitCode;
use std::time::{Duration, Instant};

/// The longest file of a made-up map.
const MOST_BYTES: usize = 249 + 52 * 500;

/// Rounds of questions to each hull of a map, and the points of a call that asks for many.
const ROUNDS: usize = 16;
const POINTS: usize = 256;

/// Numbers drawn one after the other, the same for the same start.
struct Draw(u64);

impl Draw {
    fn next(&mut self) -> u64 {
        self.0 = self.0.wrapping_mul(6364136223846793005).wrapping_add(1442695040888963407);
        self.0 >> 33
    }

    /// A coordinate around the planes of a made-up map, on one of them, or now and then a special float.
    fn coordinate(&mut self) -> f32 {
        match self.next() % 512 {
            0 => f32::NAN,
            1 => f32::INFINITY,
            2 => f32::NEG_INFINITY,
            3 => f32::MAX,
            4..=67 => (self.next() % 257) as f32 - 128.0,
            _ => (self.next() % 80_001) as f32 / 250.0 - 160.0,
        }
    }

    fn point(&mut self) -> [f32; 3] {
        [self.coordinate(), self.coordinate(), self.coordinate()]
    }
}

/// What was asked so far, and the least and the most resident memory, in KiB, of the lines of progress.
struct Tally {
    since: Instant,
    maps: u64,
    calls: u64,
    refused: u64,
    /// The first refusal.
    first: Option<String>,
    memory: (u64, u64),
}

impl Tally {
    fn new() -> Tally {
        let (since, first, memory) = (Instant::now(), None, (u64::MAX, 0));
        Tally { since, maps: 0, calls: 0, refused: 0, first, memory }
    }

    /// Counts a call, and gives its answer if there is one.
    fn ask<T>(&mut self, made: Made, call: &str, answer: Result<T, Refusal>) -> Option<T> {
        self.calls += 1;
        if let Err(refusal) = &answer {
            self.refused += 1;
            let Made { seed, nodes } = made;
            self.first.get_or_insert_with(|| {
                let number = refusal.number();
                format!("seed {seed}, {nodes} nodes: {call} refused {number}, {refusal}")
            });
        }
        answer.ok()
    }

    /// A line of progress.
    fn print(&mut self) {
        let resident = resident();
        self.memory = (self.memory.0.min(resident), self.memory.1.max(resident));
        println!(
            "{:.1} s: {} maps, {} calls, {} answered, {} refused, {resident} KiB resident",
            self.since.elapsed().as_secs_f64(),
            self.maps,
            self.calls,
            self.calls - self.refused,
            self.refused
        );
    }
}

/// The resident memory in KiB, as the kernel tells it; 0 where it does not.
fn resident() -> u64 {
    let status = std::fs::read_to_string("/proc/self/status").unwrap_or_default();
    let line = status.lines().find_map(|line| line.strip_prefix("VmRSS:"));
    line.and_then(|rest| rest.split_whitespace().next()?.parse().ok()).unwrap_or(0)
}

/// What a made-up map is made of.
#[derive(Copy, Clone)]
struct Made {
    seed: u32,
    nodes: usize,
}

/// Everything that one hull is asked.
fn ask_hull(tally: &mut Tally, draw: &mut Draw, made: Made, map: &Map, hull: &Hull) {
    tally.ask(made, "hull_check", map.hull_check(hull));
    for _ in 0..ROUNDS {
        let (start, end) = (draw.point(), draw.point());
        tally.ask(made, "contents", map.contents(hull, start));
        tally.ask(made, "trace", map.trace(hull, start, end));
        tally.ask(made, "trace_line", map.trace_line(hull, start, end));
    }
    let points: Vec<[f32; 3]> = (0..POINTS).map(|_| draw.point()).collect();
    tally.ask(made, "contents_at_points", map.contents_at_points(hull, &points));
}

/// Everything that one map is asked.
fn ask_map(tally: &mut Tally, draw: &mut Draw, made: Made, file: &[u8]) {
    let Some(map) = tally.ask(made, "load", Map::load(file)) else { return };
    tally.ask(made, "accept", map.accept());
    for table in [NodeTable::Render, NodeTable::Clip] {
        tally.ask(made, "tree_check", map.tree_check(table, 0));
    }
    for index in 0..3 {
        if let Some(hull) = tally.ask(made, "hull", map.hull(0, index)) {
            ask_hull(tally, draw, made, &map, &hull);
        }
    }
    for _ in 0..ROUNDS {
        tally.ask(made, "find_leaf", map.find_leaf(draw.point()));
    }
    for leaf in 0..2 {
        tally.ask(made, "visible_leaves", map.visible_leaves(leaf, 2));
    }
}

/// Seed after seed until the time is over.
fn soak(time: Duration, first: u32) -> Tally {
    let every = (time / 10).min(Duration::from_secs(10));
    let (mut tally, mut next) = (Tally::new(), every);
    let mut buffer = vec![0; MOST_BYTES];
    let mut seed = first;
    while tally.since.elapsed() < time {
        let mut draw = Draw(seed.into());
        let made = Made { seed, nodes: 1 + (draw.next() % 500) as usize };
        let written = made_up_into(seed, made.nodes, &mut buffer);
        if let Some(length) = tally.ask(made, "made_up", written) {
            ask_map(&mut tally, &mut draw, made, &buffer[..length]);
        }
        tally.maps += 1;
        seed = seed.wrapping_add(1);
        if tally.since.elapsed() >= next {
            tally.print();
            next += every;
        }
    }
    tally
}

fn main() -> ExitCode {
    let words: Vec<String> = std::env::args().skip(1).collect();
    let seconds = words.first().and_then(|word| word.parse().ok()).filter(|time| *time > 0);
    let seed = words.get(1).map_or(Some(1), |word| word.parse().ok());
    let (Some(seconds), Some(seed), true) = (seconds, seed, words.len() <= 2) else {
        eprintln!("usage: soak SECONDS [SEED]");
        return ExitCode::from(2);
    };
    let Tally { maps, calls, refused, first, memory, .. } =
        soak(Duration::from_secs(seconds), seed);
    let (least, most) = memory;
    println!(
        "done: {maps} maps, {calls} calls, {} answered, {refused} refused, {least} to {most} KiB resident",
        calls - refused
    );
    match first {
        None => ExitCode::SUCCESS,
        Some(first) => {
            println!("first refusal: {first}");
            ExitCode::FAILURE
        }
    }
}

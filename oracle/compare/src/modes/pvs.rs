//! Visibility lists beside those of the published Rust, cut at the leaf count, and beside documents 01
//! and 02 read as a program: any rows, rows cut short, offsets at and past the end, lists too short,
//! leaf counts from 0 on.

use maps::record::{Leaf, Tables};
use maps::{Layout, Seed};

use crate::calls::asked::Asked;
use crate::calls::words;
use crate::calls::Calls;
use crate::cases::tables::Made;
use crate::modes::walks::lent_list;
use crate::paper::vis;
use crate::report::board::{Board, Plan, Sides};

pub fn run(plan: &Plan) -> bool {
    compare(&Calls::linked(), plan).print()
}

pub fn compare(calls: &Calls, plan: &Plan) -> Board {
    let mut board = Board::new();
    for (case, mut seed) in plan.seeds("pvs") {
        let made = map(&mut seed);
        let Ok(rust) = richter::load(&made.file) else {
            panic!("case {case}: the Rust refuses a map made to load");
        };
        let asked =
            Asked { calls, name: &|| format!("case {case}"), file: &made.file, map: &made.map };
        for _ in 0..12 {
            one(&mut board, &asked, &mut seed, &rust, made.tables.leaves.len() as u64);
        }
        short_lists(&mut board, &asked, &mut seed);
    }
    board
}

/// Bytes of rows: set bits and runs of zeros, or anything.
fn rows(seed: &mut Seed, size: usize) -> Vec<u8> {
    let zeros = 1 + seed.below(6);
    let mut out = Vec::with_capacity(size + 2);
    while out.len() < size {
        match seed.below(8) {
            0 => out.push(1 << seed.below(8)),
            1 => out.push(0xff),
            n if n < zeros => out.extend([0, zero_run(seed)]),
            _ => out.push(seed.next() as u8),
        }
    }
    out.truncate(size);
    out
}

fn zero_run(seed: &mut Seed) -> u8 {
    match seed.below(4) {
        0 => 0,
        1 => 255,
        2 => seed.next() as u8,
        _ => 1 + seed.below(4) as u8,
    }
}

/// A map with some leaves and rows, large now and then.
pub fn map(seed: &mut Seed) -> Made {
    let size = match seed.below(10) {
        0 => 0,
        1 => 1,
        2 => 4000 + seed.below(4000) as usize,
        _ => seed.below(60) as usize,
    };
    let mut tables = Tables { visibility: rows(seed, size), ..Tables::smallest() };
    tables.leaves = (0..seed.below(12))
        .map(|_| {
            let visibility = match seed.below(8) {
                0 => -1,
                1 => size as i32,
                2 => size as i32 + 1,
                3 => (size as i32 - 1).max(0),
                4 => i32::MAX,
                _ => seed.below(size as u64 + 1) as i32,
            };
            let (min, max) = ([0; 3], [0; 3]);
            Leaf { contents: -1, visibility, min, max, facelist: 0, faces: 0, sounds: [0; 4] }
        })
        .collect();
    Made::new(tables, &Layout::plain())
}

fn one(board: &mut Board, asked: &Asked, seed: &mut Seed, rust: &richter::Map, leaves: u64) {
    let leaf = match seed.below(12) {
        0 => 0,
        1 => leaves,
        2 => leaves + 1,
        3 => (1 << 32) + seed.below(leaves + 1),
        4 => u64::MAX,
        _ => seed.below(leaves.max(1)),
    };
    let leaf_count = leaf_count(seed);
    ask(board, asked, seed, rust, (leaf, leaf_count));
}

pub fn leaf_count(seed: &mut Seed) -> u64 {
    match seed.below(12) {
        0 => 0,
        1 => 1,
        2 => 2,
        3 => u64::MAX,
        4 => 1 << 32,
        5 => seed.below(70_000),
        6 => 1 + 8 * seed.below(20),
        _ => seed.below(400),
    }
}

/// The list of a leaf for so many leaves.
pub fn ask(
    board: &mut Board,
    asked: &Asked,
    seed: &mut Seed,
    rust: &richter::Map,
    (leaf, leaf_count): (u64, u64),
) {
    let found = words::pvs(rust, leaf, leaf_count);
    let needed = found.as_ref().map_or(0, |list| list.len());
    let lent = (lent_list(seed, needed), 1 + seed.below(2) as usize);
    let Asked { calls, file, map, .. } = *asked;
    board.list(
        "bsp_pvs",
        lent,
        Sides::both(found, vis::get_pvs(&asked.paper(), leaf, leaf_count)),
        |list, out| (calls.pvs)(file, map, leaf, leaf_count, list, out),
        || asked.input(format!("leaf {leaf}, leaf count {leaf_count}, list of {}", lent.0)),
    );
}

/// No word for the length, or too few for the map, is 22 before a leaf outside its table.
fn short_lists(board: &mut Board, asked: &Asked, seed: &mut Seed) {
    let Asked { calls, file, map, .. } = *asked;
    let few = seed.below(31) as usize;
    let leaf = seed.below(2) * u64::MAX;
    for (words, out) in [(few, 1), (31, 0)] {
        let map = &map[..words];
        board.list(
            "bsp_pvs",
            (4, out),
            Sides::paper(Err(22)),
            |list, out| (calls.pvs)(file, map, leaf, 9, list, out),
            || asked.input(format!("{words} words of a map, {out} of the answer")),
        );
    }
}

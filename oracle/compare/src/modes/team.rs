//! What a team can see beside the lists of the published Rust, cut at the leaf count and pooled, and
//! beside document 02 read as a program: up to 16 players and more, players in one leaf, players in
//! leaf 0, rows that agree and rows that share nothing, long runs of zeros, refusals in the players'
//! order.

use std::collections::BTreeSet;

use maps::record::{Leaf, Tables};
use maps::{Layout, Seed};

use crate::calls::asked::Asked;
use crate::calls::words;
use crate::calls::Calls;
use crate::cases::tables::Made;
use crate::modes::pvs;
use crate::modes::walks::lent_list;
use crate::paper::team;
use crate::report::board::{Board, Plan, Sides};

pub fn run(plan: &Plan) -> bool {
    compare(&Calls::linked(), plan).print()
}

pub fn compare(calls: &Calls, plan: &Plan) -> Board {
    let mut board = Board::new();
    for (case, mut seed) in plan.seeds("team") {
        // any rows, or rows that are whole for a count
        let (made, whole) = match seed.below(3) {
            0 => (pvs::map(&mut seed), None),
            _ => whole_rows(&mut seed),
        };
        let Ok(rust) = richter::load(&made.file) else {
            panic!("case {case}: the Rust refuses a map made to load");
        };
        let asked =
            Asked { calls, name: &|| format!("case {case}"), file: &made.file, map: &made.map };
        let count = made.tables.leaves.len() as u64;
        for _ in 0..8 {
            let leaf_count = match whole {
                Some(whole) if seed.below(4) > 0 => whole,
                _ => pvs::leaf_count(&mut seed),
            };
            let players = players(&mut seed, count);
            ask(&mut board, &asked, &mut seed, Some(&rust), (&players, leaf_count));
        }
        short_lists(&mut board, &asked, &mut seed);
    }
    board
}

/// A map of up to 24 leaves, each with a row that is whole for the count, of few bytes or of many, of
/// runs of zeros alone or of single bits far apart.
fn whole_rows(seed: &mut Seed) -> (Made, Option<u64>) {
    let count = match seed.below(5) {
        0 => 2 + seed.below(9),
        1 => 1_000_000 + seed.below(12_000_000),
        2 => 1 + 8 * seed.below(40),
        _ => 2 + seed.below(3_000),
    };
    let mut tables = Tables { visibility: Vec::new(), ..Tables::smallest() };
    tables.leaves = (0..2 + seed.below(23))
        .map(|_| {
            let visibility = match seed.below(12) {
                0 => -1,
                _ => {
                    let at = tables.visibility.len() as i32;
                    row(seed, count, &mut tables.visibility);
                    at
                }
            };
            let (min, max) = ([0; 3], [0; 3]);
            Leaf { contents: -1, visibility, min, max, facelist: 0, faces: 0, sounds: [0; 4] }
        })
        .collect();
    (Made::new(tables, &Layout::plain()), Some(count))
}

/// A row that reaches the count. Of many leaves it is runs of zeros for the most part.
fn row(seed: &mut Seed, count: u64, bytes: &mut Vec<u8>) {
    let far = count > 100_000;
    let zeros = if far { 15 } else { 1 + seed.below(14) };
    let mut leaf = 1;
    while leaf < count {
        match seed.below(16) {
            n if n < zeros => {
                let run = match seed.below(4) {
                    0 if !far => 0,
                    1 if !far => 1 + seed.below(3) as u8,
                    2 => seed.next() as u8,
                    _ => 255,
                };
                bytes.extend([0, run]);
                leaf += 8 * run as u64;
            }
            15 if !far => (bytes.push(0xff), leaf += 8).1,
            _ => (bytes.push(1 << seed.below(8)), leaf += 8).1,
        }
    }
}

/// The leaves of a team of any size up to 18: in range for the most part, and often the same.
fn players(seed: &mut Seed, leaves: u64) -> Vec<u64> {
    let size = match seed.below(8) {
        0 => 0,
        1 => 1,
        2 => 16,
        3 => 17 + seed.below(2),
        _ => 2 + seed.below(15),
    };
    let wild = seed.below(3) == 0;
    let one = seed.below(leaves.max(1));
    (0..size)
        .map(|_| match seed.below(24) {
            0 if wild => leaves,
            1 if wild => (1 << 32) + seed.below(leaves + 1),
            2 if wild => u64::MAX,
            3 => 0,
            4..=6 => one,
            _ => seed.below(leaves.max(1)),
        })
        .collect()
}

/// The pooled lists of the Rust: the first refusal in the players' order, 25 before it.
fn pooled(rust: &richter::Map, leaves: &[u64], leaf_count: u64) -> Result<Vec<u32>, u32> {
    if leaves.len() > 16 {
        return Err(25);
    }
    let lists: Result<Vec<Vec<u32>>, u32> =
        leaves.iter().map(|leaf| words::pvs(rust, *leaf, leaf_count)).collect();
    let pool: BTreeSet<u32> = lists?.into_iter().flatten().collect();
    Ok(pool.into_iter().collect())
}

/// The pooled list of some players for so many leaves.
pub fn ask(
    board: &mut Board,
    asked: &Asked,
    seed: &mut Seed,
    rust: Option<&richter::Map>,
    (leaves, leaf_count): (&[u64], u64),
) {
    let expected = team::pvs_team(&asked.paper(), leaves, leaf_count);
    let needed = expected.as_ref().map_or(0, |list| list.len());
    let lent = (lent_list(seed, needed), 1 + seed.below(2) as usize);
    let Asked { calls, file, map, .. } = *asked;
    board.list(
        "bsp_pvs_team",
        lent,
        Sides { rust: rust.map(|rust| pooled(rust, leaves, leaf_count)), paper: Some(expected) },
        |list, out| (calls.pvs_team)(file, map, leaves, leaf_count, list, out),
        || asked.input(format!("leaves {leaves:?}, leaf count {leaf_count}, list of {}", lent.0)),
    );
}

/// No word for the length, or too few for the map, is 22 before too many players.
fn short_lists(board: &mut Board, asked: &Asked, seed: &mut Seed) {
    let Asked { calls, file, map, .. } = *asked;
    let few = seed.below(31) as usize;
    let leaves = vec![seed.below(2) * u64::MAX; seed.below(18) as usize];
    for (words, out) in [(few, 1), (31, 0)] {
        let map = &map[..words];
        board.list(
            "bsp_pvs_team",
            (4, out),
            Sides::paper(Err(22)),
            |list, out| (calls.pvs_team)(file, map, &leaves, 9, list, out),
            || asked.input(format!("{words} words of a map, {out} of the answer")),
        );
    }
}

//! Every record and query of a map that loads, beside the published Rust and document 01 read as a
//! program: the records, the counts, the entity text, the hulls of the models with walks and traces
//! from each, leaf lookups, a box, the visibility lists of the leaves, the tree check. Of large
//! tables a sample is asked.

use maps::record::Plane;
use maps::Seed;

use crate::calls::asked::Asked;
use crate::cases::tables;
use crate::modes::{pvs, records, tree, walks};
use crate::paper;
use crate::report::board::Board;

/// The models and leaves of one file that are all asked about; of more, the first, the last and so
/// many others.
const MODELS: u64 = 6;
const LEAVES: u64 = 12;

/// Planes of the map that points and segments lie at.
const PLANES: u64 = 12;

/// A visibility section above this many bytes is seldom read to its end.
const LONG_ROWS: u64 = 20_000;

pub fn all(board: &mut Board, asked: &Asked, seed: &mut Seed, rust: &richter::Map) {
    records::tables_of(board, asked, seed, rust, records::SAMPLED);
    let planes = planes(seed, rust);
    hulls(board, asked, seed, rust, &planes);
    let (p, s) = (tables::point(seed, &planes), tables::segment(seed, &planes));
    walks::from_roots(board, asked, seed, rust, p, s);
    walks::one_box(board, asked, seed, 1);
    lists(board, asked, seed, rust);
    tree::of_loaded(board, asked, seed, rust);
}

/// Some planes of the map, as a file would hold them.
fn planes(seed: &mut Seed, rust: &richter::Map) -> Vec<Plane> {
    let all = rust.planes();
    records::chosen(seed, all.len() as u64, PLANES)
        .into_iter()
        .map(|at| all[at as usize])
        .map(|p| Plane { normal: p.normal, dist: p.dist, kind: p.kind as i32 })
        .collect()
}

/// The hulls 0 to 3 of every model, and of one model too many.
fn hulls(board: &mut Board, asked: &Asked, seed: &mut Seed, rust: &richter::Map, planes: &[Plane]) {
    let count = asked.paper().count(paper::MODELS);
    for model in records::chosen(seed, count, MODELS).into_iter().chain([count]) {
        for index in 0..4 {
            walks::one_hull(board, asked, seed, rust, (model, index), planes);
        }
    }
}

/// The lists of every leaf, and of one too many, for the map's leaf count and others.
fn lists(board: &mut Board, asked: &Asked, seed: &mut Seed, rust: &richter::Map) {
    let count = asked.paper().count(paper::LEAVES);
    let long = asked.paper().size(paper::VISIBILITY) > LONG_ROWS;
    for leaf in records::chosen(seed, count, LEAVES).into_iter().chain([count]) {
        let odd = match seed.below(5) {
            0 => seed.below(3),
            1 => 1 << 32,
            2 => u64::MAX,
            3 => count + 1 + seed.below(20),
            _ => 1 + 8 * seed.below(9),
        };
        let odd = if long && !seed.once_in(20) { odd.min(100_000) } else { odd };
        for leaf_count in [count, seed.below(100), odd] {
            pvs::ask(board, asked, seed, rust, (leaf, leaf_count));
        }
    }
}

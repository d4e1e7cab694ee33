//! The contents of many points in one call (document 02, note 7): the codes beside the Rust, point by
//! point; codes, refusals and reads beside the program on paper, which counts the different runs of
//! sides; and on a root that passed the tree check the reads beside the different nodes that the
//! Rust's own walks enter.

use std::collections::BTreeSet;

use maps::floats;
use maps::record::Plane;
use maps::world::{self, World};
use maps::{make, shape, Seed, Shape};
use richter::Hull;

use crate::calls::asked::Asked;
use crate::calls::words;
use crate::calls::Calls;
use crate::cases::tables::{self, Made};
use crate::modes::walks::{bits_of, hull_words, lent_hull, three, PATIENCE};
use crate::paper::{self, points, tree, walk};
use crate::report::board::{shown, Board, Plan, Side};

const CALL: &str = "bsp_contents_points";

pub fn run(plan: &Plan) -> bool {
    compare(&Calls::linked(), plan).print()
}

pub fn compare(calls: &Calls, plan: &Plan) -> Board {
    let mut board = Board::new();
    richter::probe::set_patience(PATIENCE);
    for (case, mut seed) in plan.seeds("points") {
        let seed = &mut seed;
        let made = match seed.below(10) {
            0 => a_world(seed),
            1 | 2 => a_map(seed),
            _ => a_table(seed),
        };
        on_file(&mut board, calls, seed, &made, case);
        on_a_box(&mut board, calls, seed, case);
        short_lists(&mut board, calls, seed, &made);
    }
    richter::probe::set_patience(usize::MAX);
    board
}

/// A tree that divides a box evenly, as on a real map.
fn a_world(seed: &mut Seed) -> Made {
    let nodes = 100 + seed.below(1000) as usize;
    let slanted = [0, 40, 100][seed.below(3) as usize];
    let world = World { nodes, slanted, visibility: 0, lightmaps: 0, faces: 0 };
    Made::new(world::tables(seed, &world), &maps::Layout::plain())
}

fn a_map(seed: &mut Seed) -> Made {
    let what = maps::Plan::any(seed, 30);
    let (made, layout) = make(seed, &what);
    Made::new(made, &layout)
}

/// A small table: a tree, a chain, nodes that share their children, or nodes with any children, which
/// loop and lead outside for some points and not for others.
fn a_table(seed: &mut Seed) -> Made {
    let wild = [0, 2, 8][seed.below(3) as usize];
    let planes = tables::few_planes(seed, wild);
    let count = 1 + seed.below(14) as usize;
    let nodes = match seed.below(6) {
        0 => shape::nodes(seed, Shape::Chain, 10 * count, planes.len()),
        1 => tables::shared(seed, planes.len(), count),
        2 | 3 => tables::small_any(seed, planes.len()),
        _ => shape::nodes(seed, Shape::Balanced, count, planes.len()),
    };
    tables::of_nodes(seed, planes, &nodes)
}

/// Both tables of a file, from some root, with points of each kind; now and then a map record made by
/// hand.
fn on_file(board: &mut Board, calls: &Calls, seed: &mut Seed, made: &Made, case: u64) {
    let rust = richter::load(&made.file).ok();
    let mut map = made.map;
    let by_hand = seed.once_in(5);
    if by_hand {
        let section = [1, 5, 9, 10][seed.below(4) as usize];
        match seed.below(3) {
            0 => map[2 * section] = (made.file.len() as u32).saturating_sub(seed.below(90) as u32),
            1 => map[2 * section + 1] += seed.below(60) as u32,
            _ => map[2 * section] = seed.below(made.file.len() as u64 + 9) as u32,
        }
    }
    let asked = Asked { calls, name: &|| format!("case {case}"), file: &made.file, map: &map };
    for _ in 0..4 {
        let table = seed.below(2) as usize;
        let section = [paper::RENDER_NODES, paper::CLIP_NODES][table];
        let root = match seed.once_in(3) {
            true => tables::root(seed, asked.paper().count(section)),
            false => 0,
        };
        let hull = hull_words(seed, table as u64, root);
        let rust = match &rust {
            Some(rust) if !by_hand => Some(rust.table(table).with_root(root as usize)),
            _ => None,
        };
        let floats = some_points(seed, &made.tables.planes);
        one(board, &asked, seed, &hull, rust.as_ref(), &floats);
    }
}

/// A box's hull as the table, over no file.
fn on_a_box(board: &mut Board, calls: &Calls, seed: &mut Seed, case: u64) {
    let asked = Asked { calls, name: &|| format!("case {case}"), file: &[], map: &[0; 31] };
    let walls = crate::modes::walks::bounds(seed);
    let root = if seed.once_in(3) { tables::root(seed, 6) } else { 0 };
    let mut hull = hull_words(seed, 2, root);
    for (at, bound) in walls.iter().enumerate() {
        hull[3 + at] = bound.to_bits() as u64;
    }
    let rust = Hull::for_bounds(three(&walls), three(&walls[3..])).ok();
    let rust = rust.map(|hull| hull.with_root(root as usize));
    let floats = some_points(seed, &crate::modes::walks::box_planes(&walls));
    one(board, &asked, seed, &hull, rust.as_ref(), &floats);
}

/// Coordinates: none, a few or up to 1,024 points, anywhere, near one another or the same over and
/// over, with odd floats now and then; and now and then too many, or not in threes.
fn some_points(seed: &mut Seed, planes: &[Plane]) -> Vec<f32> {
    let count = match seed.below(12) {
        0 => 0,
        1 => 1,
        2 => 2,
        3 => 1_023 + seed.below(3) as usize,
        4 => 16 + seed.below(2) as usize,
        5 => 127 + seed.below(3) as usize,
        6 => seed.below(1_024) as usize,
        _ => seed.below(40) as usize,
    };
    let near = [0.0, 0.5, 64.0, 1e9][seed.below(4) as usize];
    let mut centre = tables::point(seed, planes);
    let mut floats: Vec<f32> = Vec::new();
    for _ in 0..count {
        if seed.once_in(8) {
            centre = tables::point(seed, planes);
        }
        for x in centre {
            floats.push(x + near * floats::half(seed));
        }
        if seed.once_in(30) {
            let last = floats.len() - 1 - seed.below(3) as usize;
            floats[last] = tables::odd_float(seed);
        }
    }
    if seed.once_in(20) {
        floats.truncate(floats.len().saturating_sub(1 + seed.below(2) as usize));
    }
    floats
}

/// What the Rust says, point by point: the codes, or the first refusal. None where it gives up.
fn by_the_rust(hull: &Hull, points: &[[f32; 3]]) -> Option<Result<Vec<u8>, u32>> {
    let mut codes = Vec::new();
    for p in points {
        let walked = words::walk(hull.contents_at_point(*p), |code, _| vec![code as u64])?;
        match walked.0 {
            Ok(words) => codes.push(words[0] as u8),
            Err(number) => return Some(Err(number)),
        }
    }
    Some(Ok(codes))
}

/// The call beside the program on paper and the Rust.
pub fn one(
    board: &mut Board,
    asked: &Asked,
    seed: &mut Seed,
    hull: &[u64],
    rust: Option<&Hull>,
    floats: &[f32],
) {
    let hull = lent_hull(seed, hull);
    let given = points::points_of(floats);
    let count = given.as_ref().map_or(0, |points| points.len());
    let lent = crate::modes::walks::lent_list(seed, count);
    let (mut list, mut out) = (vec![0xa5; lent], [7; 2]);
    let Asked { calls, file, map, .. } = *asked;
    let refusal = (calls.contents_points)(file, map, hull, floats, &mut list, &mut out);
    let on_page = walk::Hull::of_words(hull).expect("a table");
    let input = || asked.input(format!("hull {}, points {}", shown(&hull), bits_of(floats)));
    let expected = given.and_then(|points| match lent < points.len() {
        true => Err(22),
        false => points::contents_points(&asked.paper(), &on_page, &points),
    });
    let side = match (rust, &expected) {
        (None, _) | (_, Err(22 | 24)) => Side::Paper,
        (Some(rust), _) => beside(board, asked, (&on_page, rust), floats, &expected, input),
    };
    let mut wanted = vec![0xa5; lent];
    if let Ok((codes, _)) = &expected {
        wanted[..codes.len()].copy_from_slice(codes);
    }
    let words = [expected.as_ref().map_or(7, |found| found.1), 7];
    let number = *expected.as_ref().err().unwrap_or(&0);
    let equal = refusal == number && list == wanted && out == words;
    let difference = (!equal).then(|| {
        format!("answers {refusal} {out:?} {}, expected {}", shown(&list), shown(&expected))
    });
    board.count(CALL, (refusal, side), difference, input);
}

/// The program on paper beside the Rust: whose answer counts.
fn beside(
    board: &mut Board,
    asked: &Asked,
    hulls: (&walk::Hull, &Hull),
    floats: &[f32],
    expected: &Result<(Vec<u8>, u64), u32>,
    input: impl Fn() -> (usize, String),
) -> Side {
    let points: Vec<[f32; 3]> = floats.chunks(3).map(three).collect();
    let mut side = Side::Paper;
    if let Some(said) = by_the_rust(hulls.1, &points) {
        side = Side::Rust;
        let page = expected.clone().map(|(codes, _)| codes);
        let difference =
            (page != said).then(|| format!("paper {}, Rust {}", shown(&page), shown(&said)));
        board.count_paper(CALL, difference, &input);
    }
    if let Ok((_, reads)) = expected {
        nodes_met(board, asked, hulls, &points, *reads, input);
    }
    side
}

/// Where the root passes the tree check, the reads are the different nodes of the Rust's walks.
fn nodes_met(
    board: &mut Board,
    asked: &Asked,
    (hull, rust): (&walk::Hull, &Hull),
    points: &[[f32; 3]],
    reads: u64,
    input: impl FnOnce() -> (usize, String),
) {
    let mut marks = vec![0; 1 << 15];
    if tree::check(&asked.paper(), hull.table.number(), hull.root, &mut marks).is_err() {
        return;
    }
    let walks = points.iter().flat_map(|p| rust.contents_at_point(*p).nodes);
    let met = walks.collect::<BTreeSet<usize>>().len() as u64;
    let difference = (met != reads).then(|| format!("{reads} runs of sides, {met} nodes met"));
    board.count("Rust, different nodes met", (0, Side::Rust), difference, input);
}

/// Each list in turn too short is 22, before a table that is none (20); too many floats, or floats
/// not in threes, are 24 before either.
fn short_lists(board: &mut Board, calls: &Calls, seed: &mut Seed, made: &Made) {
    let table = 3 + seed.below(3);
    let hull = hull_words(seed, table, 0);
    let count = 1 + seed.below(5) as usize;
    for short in 0..6 {
        let mut cut = |which: u64, full: usize| match which == short {
            true => seed.below(full as u64) as usize,
            false => full,
        };
        let (words, nine, one) = (cut(0, 31), cut(1, 9), cut(2, 1));
        let bytes = cut(3, count);
        let (number, floats) = match short {
            4 => (20, 3 * count),
            5 => (24, [3 * count - 1, 3 * count + 1, 3_075][seed.below(3) as usize]),
            _ => (22, 3 * count),
        };
        // with 24 every other list is short too
        let keep = |len: usize| if number == 24 { len / 2 } else { len };
        let (mut list, mut out) = (vec![0xa5; keep(bytes)], vec![7; keep(one)]);
        let refusal = (calls.contents_points)(
            &made.file,
            &made.map[..keep(words)],
            &hull[..keep(nine)],
            &vec![f32::NAN; floats],
            &mut list,
            &mut out,
        );
        let kept = list.iter().all(|byte| *byte == 0xa5) && out.iter().all(|word| *word == 7);
        let difference =
            (refusal != number || !kept).then(|| format!("answers {refusal}, expected {number}"));
        board.count(CALL, (refusal, Side::Paper), difference, || {
            (words, format!("{words} words of a map, {nine} of a hull, {floats} floats, {bytes} bytes, {one} word"))
        });
    }
}

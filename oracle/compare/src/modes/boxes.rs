//! The contents that a box of points meets (document 02, note 12), beside the program on paper; and
//! the property that the note states, on the Rust's own walks: the contents of each point of a box
//! are in the set, and a box of one point has that point's contents alone.

use maps::floats;
use maps::record::Plane;
use maps::world::{self, World};
use maps::Seed;
use maps::{shape, Shape};

use crate::calls::asked::Asked;
use crate::calls::Calls;
use crate::cases::tables::{self, Made};
use crate::modes::walks::{bits_of, hull_words};
use crate::paper::{self, boxes, walk};
use crate::report::board::{shown, Board, Plan, Side};

/// Points asked of a box.
const POINTS: usize = 40;

pub fn run(plan: &Plan) -> bool {
    compare(&Calls::linked(), plan).print()
}

pub fn compare(calls: &Calls, plan: &Plan) -> Board {
    let mut board = Board::new();
    for (case, mut seed) in plan.seeds("boxes") {
        let seed = &mut seed;
        if seed.once_in(40) {
            let made = a_world(seed);
            on_file(&mut board, calls, seed, &made, case);
            continue;
        }
        let made = a_table(seed);
        on_file(&mut board, calls, seed, &made, case);
        on_a_box(&mut board, calls, seed, case);
        short_lists(&mut board, calls, seed, &made);
    }
    board
}

/// A tree that divides a box evenly, as on a real map.
fn a_world(seed: &mut Seed) -> Made {
    let nodes = 200 + seed.below(2000) as usize;
    let slanted = [0, 40, 100][seed.below(3) as usize];
    let world = World { nodes, slanted, visibility: 0, lightmaps: 0, faces: 0 };
    Made::new(world::tables(seed, &world), &maps::Layout::plain())
}

/// A small table: a tree, a chain around 512 nodes, or nodes with any children.
fn a_table(seed: &mut Seed) -> Made {
    let wild = [0, 2, 8][seed.below(3) as usize];
    let planes = tables::few_planes(seed, wild);
    let nodes = match seed.below(8) {
        0 => tables::small_any(seed, planes.len()),
        1 => shape::nodes(seed, Shape::Chain, 505 + planes.len() * 3, planes.len()),
        _ => {
            let count = 1 + seed.below(14) as usize;
            shape::nodes(seed, Shape::Balanced, count, planes.len())
        }
    };
    tables::of_nodes(seed, planes, &nodes)
}

/// Both tables of a file, from some root, with boxes of every size; now and then a map record made by
/// hand.
pub fn on_file(board: &mut Board, calls: &Calls, seed: &mut Seed, made: &Made, case: u64) {
    let rust = richter::load(&made.file).ok();
    let mut map = made.map;
    let by_hand = seed.once_in(5);
    if by_hand {
        let section = [1, 5, 9, 10][seed.below(4) as usize];
        match seed.below(3) {
            0 => map[2 * section] = (made.file.len() as u32).saturating_sub(seed.below(90) as u32),
            1 => map[2 * section + 1] += seed.below(60) as u32,
            _ => map[2 * section] = seed.below(made.file.len() as u64 + 9) as u32,
        }
    }
    let asked = Asked { calls, name: &|| format!("case {case}"), file: &made.file, map: &map };
    for _ in 0..6 {
        let table = seed.below(2) as usize;
        let section = [paper::RENDER_NODES, paper::CLIP_NODES][table];
        let root = match seed.once_in(3) {
            true => tables::root(seed, asked.paper().count(section)),
            false => 0,
        };
        let hull = hull_words(seed, table as u64, root);
        let bounds = bounds(seed, &made.tables.planes);
        let set = one(board, &asked, seed, &hull, &bounds);
        if let (Some(set), Some(rust), false) = (set, &rust, by_hand) {
            points(
                board,
                &asked,
                seed,
                (&rust.table(table).with_root(root as usize), set),
                &bounds,
            );
        }
    }
}

/// A box's hull as the table, over no file.
fn on_a_box(board: &mut Board, calls: &Calls, seed: &mut Seed, case: u64) {
    let asked = Asked { calls, name: &|| format!("case {case}"), file: &[], map: &[0; 31] };
    let walls = crate::modes::walks::bounds(seed);
    let root = if seed.once_in(3) { tables::root(seed, 6) } else { 0 };
    let mut hull = hull_words(seed, 2, root);
    for (at, bound) in walls.iter().enumerate() {
        hull[3 + at] = bound.to_bits() as u64;
    }
    let planes = crate::modes::walks::box_planes(&walls);
    for _ in 0..3 {
        let bounds = bounds(seed, &planes);
        let set = one(board, &asked, seed, &hull, &bounds);
        let rust = richter::Hull::for_bounds(three(&walls), three(&walls[3..]));
        if let (Some(set), Ok(rust)) = (set, rust) {
            points(board, &asked, seed, (&rust.with_root(root as usize), set), &bounds);
        }
    }
}

fn three(floats: &[f32]) -> [f32; 3] {
    [floats[0], floats[1], floats[2]]
}

/// Mins and maxs around a point: of no extent on some axes, at or next to a plane, wide; now and
/// then no box.
fn bounds(seed: &mut Seed, planes: &[Plane]) -> [f32; 6] {
    let p = maps::query::point(seed, planes);
    let size = [0.0, 0.0, 1.0, 32.0, 500.0, 1e30][seed.below(6) as usize];
    let mut bounds = [p[0], p[1], p[2], p[0], p[1], p[2]];
    for at in 0..3 {
        match seed.below(6) {
            0 => {}
            1 => bounds[at + 3] = floats::nudged(seed, p[at], 3).max(p[at]),
            2 => bounds[at] = maps::query::point(seed, planes)[at].min(p[at]),
            _ => {
                bounds[at] -= size * floats::half(seed).abs();
                bounds[at + 3] += size * floats::half(seed).abs();
            }
        }
        if seed.once_in(40) {
            bounds.swap(at, at + 3);
        }
        if seed.once_in(40) {
            bounds[at + 3 * seed.below(2) as usize] = tables::odd_float(seed);
        }
    }
    bounds
}

/// The call beside the program on paper; its set, where there is one.
pub fn one(
    board: &mut Board,
    asked: &Asked,
    seed: &mut Seed,
    hull: &[u64],
    bounds: &[f32],
) -> Option<u64> {
    let Asked { calls, file, map, .. } = *asked;
    let page = asked.paper();
    let nodes = match hull[0] {
        0 => page.count(paper::RENDER_NODES) as usize,
        1 => page.count(paper::CLIP_NODES) as usize,
        _ => 6,
    };
    let marks = marks(seed, nodes);
    let mut wanted = marks.clone();
    let expected = walk::Hull::of_words(hull)
        .and_then(|h| boxes::contents_box(&page, &h, bounds, &mut wanted));
    let (mut left, mut out) = (marks, [7; 2]);
    let refusal = (calls.contents_box)(file, map, hull, bounds, &mut left, &mut out);
    let words = [*expected.as_ref().unwrap_or(&7), 7];
    let equal = refusal == *expected.as_ref().err().unwrap_or(&0) && out == words && left == wanted;
    let difference = (!equal).then(|| {
        format!("answers {refusal} {out:?} marks {}, expected {expected:?}", shown(&left))
    });
    board.count("bsp_contents_box", (refusal, Side::Paper), difference, || {
        asked.input(format!("hull {}, bounds {}", shown(&hull), bits_of(bounds)))
    });
    expected.ok()
}

/// Marks of about the table's size, clean or not.
fn marks(seed: &mut Seed, nodes: usize) -> Vec<u8> {
    let len = match seed.below(12) {
        0 => nodes.saturating_sub(1),
        1 | 2 => nodes,
        _ => nodes + seed.below(5) as usize,
    };
    let fill = [0, 1, 0xff][seed.below(3) as usize];
    vec![fill; len]
}

/// The Rust's walk of points of the box, from the root that passed: each one's contents are in the
/// set, and are the set where the box is one point.
pub fn points(
    board: &mut Board,
    asked: &Asked,
    seed: &mut Seed,
    (hull, set): (&richter::Hull, u64),
    bounds: &[f32; 6],
) {
    let alone = (0..3).all(|at| bounds[at] == bounds[at + 3]);
    for which in 0..POINTS {
        let p = point_of(seed, bounds, which);
        let code = hull.contents_at_point(p).value;
        let holds = match &code {
            Ok(code) if alone => set == 1 << *code as u64,
            Ok(code) => set >> *code as u64 & 1 == 1,
            Err(_) => false,
        };
        let difference = (!holds).then(|| format!("set {set:b}, the Rust at the point {code:?}"));
        let name = if alone { "Rust, a box of one point" } else { "Rust, points of a box" };
        board.count(name, (0, Side::Rust), difference, || {
            asked.input(format!("bounds {}, point {}", bits_of(bounds), bits_of(&p)))
        });
    }
}

/// A point of the box: its corners, then points on its faces and edges, next to its bounds, and
/// anywhere in it.
fn point_of(seed: &mut Seed, bounds: &[f32; 6], which: usize) -> [f32; 3] {
    let mut p = [0.0; 3];
    for at in 0..3 {
        let (least, most) = (bounds[at], bounds[at + 3]);
        let inside = |x: f32| if x >= least && x <= most { x } else { least };
        p[at] = match which {
            0..=7 => [least, most][which >> at & 1],
            _ => match seed.below(5) {
                0 => least,
                1 => most,
                2 => inside(floats::nudged(seed, least, 2)),
                3 => inside(floats::nudged(seed, most, 2)),
                _ => inside(least + (most - least) * floats::half(seed).abs() * 2.0),
            },
        };
    }
    p
}

/// Each list in turn too short is 22, before a table that is none (20) and before bounds that are no
/// box's; the marks stay as they were.
fn short_lists(board: &mut Board, calls: &Calls, seed: &mut Seed, made: &Made) {
    let bounds = [f32::NAN; 6];
    let table = 3 + seed.below(3);
    let hull = hull_words(seed, table, 0);
    for short in 0..5 {
        let mut cut = |which: u64, full: usize| match which == short {
            true => seed.below(full as u64) as usize,
            false => full,
        };
        let (words, nine, six, one) = (cut(0, 31), cut(1, 9), cut(2, 6), cut(3, 1));
        let number = if short == 4 { 20 } else { 22 };
        let (mut marks, mut out) = ([0xa5; 3], vec![7; one]);
        let refusal = (calls.contents_box)(
            &made.file,
            &made.map[..words],
            &hull[..nine],
            &bounds[..six],
            &mut marks,
            &mut out,
        );
        let equal = refusal == number && marks == [0xa5; 3] && out.iter().all(|word| *word == 7);
        let difference = (!equal).then(|| format!("answers {refusal}, expected {number}"));
        board.count("bsp_contents_box", (refusal, Side::Paper), difference, || {
            (words, format!("{words} words of a map, {nine} of a hull, {six} bounds, {one} word"))
        });
    }
}

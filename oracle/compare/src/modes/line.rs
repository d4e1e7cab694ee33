//! Whole-line traces (document 02, note 6) beside the program on paper; and what is stated of them:
//! the fraction is a NaN or from 0 to 1, and on a map that loads a root that passed the tree check
//! is never refused.

use maps::record::Plane;
use maps::world::{self, World};
use maps::Seed;
use maps::{floats, shape, Shape};

use crate::calls::asked::Asked;
use crate::calls::{Calls, HULL_ASKED, LINE_WORDS};
use crate::cases::tables::{self, Made};
use crate::modes::walks::{bits_of, bounds, box_planes, hull_words, lent_hull, three, PATIENCE};
use crate::paper::{self, line, tree, walk};
use crate::report::board::{shown, Board, Plan, Side, Sides};

pub fn run(plan: &Plan) -> bool {
    compare(&Calls::linked(), plan).print()
}

pub fn compare(calls: &Calls, plan: &Plan) -> Board {
    let mut board = Board::new();
    for (case, mut seed) in plan.seeds("line") {
        let seed = &mut seed;
        match seed.below(12) {
            0 => on_world(&mut board, calls, seed, case),
            1 | 2 => on_boxes(&mut board, calls, seed, case),
            _ => on_table(&mut board, calls, seed, case),
        }
    }
    board
}

/// A tree that divides a box evenly, as on a real map, with shots of every length.
fn on_world(board: &mut Board, calls: &Calls, seed: &mut Seed, case: u64) {
    let nodes = 100 + seed.below(1500) as usize;
    let slanted = [0, 40, 100][seed.below(3) as usize];
    let world = World { nodes, slanted, visibility: 0, lightmaps: 0, faces: 0 };
    let made = Made::new(world::tables(seed, &world), &maps::Layout::plain());
    let asked = Asked { calls, name: &|| format!("case {case}"), file: &made.file, map: &made.map };
    let loads = richter::load(&made.file).is_ok();
    for table in 0..2 {
        let root = match seed.once_in(2) {
            true => tables::root(seed, made.tables.clip_nodes.len() as u64),
            false => 0,
        };
        let hull = hull_words(seed, table, root);
        let checked = loads && is_checked(&asked, &hull);
        for _ in 0..40 {
            let p = [0; 3].map(|_| floats::half(seed) * 2.0 * world::SIDE);
            let way = floats::unit(seed);
            let length = [1.0, 100.0, 1000.0, 8000.0][seed.below(4) as usize];
            let q = [0, 1, 2].map(|at| p[at] + length * way[at]);
            let shot = match seed.below(8) {
                0 => tables::segment(seed, &made.tables.planes),
                _ => [p[0], p[1], p[2], q[0], q[1], q[2]],
            };
            one(board, &asked, seed, (&hull, checked), shot);
        }
    }
}

fn some_nodes(seed: &mut Seed, planes: &[Plane], p: [f32; 3]) -> Vec<shape::Node> {
    match seed.below(10) {
        0 => tables::small_any(seed, planes.len()),
        1 => {
            let count = 1 + seed.below(40) as usize;
            tables::shared(seed, planes.len(), count)
        }
        2 if seed.once_in(4) => {
            let count = 509 + seed.below(6) as usize;
            tables::chain_along(seed, planes, count, p)
        }
        2 => shape::nodes(seed, Shape::Chain, 40, planes.len()),
        _ => {
            let count = 1 + seed.below(20) as usize;
            shape::nodes(seed, Shape::Balanced, count, planes.len())
        }
    }
}

/// Small trees, chains around 512 nodes, shared branches and tables with loops, children and planes
/// outside; now and then with a map record made by hand.
fn on_table(board: &mut Board, calls: &Calls, seed: &mut Seed, case: u64) {
    let wild = [0, 2, 8][seed.below(3) as usize];
    let planes = tables::few_planes(seed, wild);
    let p = tables::point(seed, &planes);
    let nodes = some_nodes(seed, &planes, p);
    let made = tables::of_nodes(seed, planes, &nodes);
    let loads = richter::load(&made.file).is_ok();
    let mut map = made.map;
    let by_hand = seed.once_in(6);
    if by_hand {
        let section = [1, 5, 9, 10][seed.below(4) as usize];
        match seed.below(3) {
            0 => map[2 * section] = (made.file.len() as u32).saturating_sub(seed.below(90) as u32),
            1 => map[2 * section + 1] += seed.below(60) as u32,
            _ => map[2 * section] = seed.below(made.file.len() as u64 + 9) as u32,
        }
    }
    let asked = Asked { calls, name: &|| format!("case {case}"), file: &made.file, map: &map };
    for table in 0..2 {
        let section = [paper::RENDER_NODES, paper::CLIP_NODES][table as usize];
        let root = match seed.once_in(3) {
            true => tables::root(seed, asked.paper().count(section)),
            false => 0,
        };
        let hull = hull_words(seed, table, root);
        let checked = loads && !by_hand && is_checked(&asked, &hull);
        for _ in 0..8 {
            let shot = shot(seed, &made.tables.planes, p);
            one(board, &asked, seed, (&hull, checked), shot);
        }
    }
    short_lists(board, &asked, seed);
}

/// Boxes over no file: from outside, from inside, past them, with any bounds and root.
fn on_boxes(board: &mut Board, calls: &Calls, seed: &mut Seed, case: u64) {
    let asked = Asked { calls, name: &|| format!("case {case}"), file: &[], map: &[0; 31] };
    let walls = bounds(seed);
    let root = if seed.once_in(3) { tables::root(seed, 6) } else { 0 };
    let mut hull = hull_words(seed, 2, root);
    for (at, bound) in walls.iter().enumerate() {
        hull[3 + at] = bound.to_bits() as u64;
    }
    let checked = is_checked(&asked, &hull);
    let planes = box_planes(&walls);
    for _ in 0..12 {
        let p = tables::point(seed, &planes);
        let shot = shot(seed, &planes, p);
        one(board, &asked, seed, (&hull, checked), shot);
    }
}

/// A segment of special floats, at or near these planes, or through this point.
fn shot(seed: &mut Seed, planes: &[Plane], p: [f32; 3]) -> [f32; 6] {
    match seed.below(3) {
        0 => tables::segment_at(seed, planes, p),
        _ => tables::segment(seed, planes),
    }
}

/// Whether the hull's root passes the tree check, on paper.
pub fn is_checked(asked: &Asked, hull: &[u64]) -> bool {
    let page = asked.paper();
    let most = page.count(paper::RENDER_NODES).max(page.count(paper::CLIP_NODES)).max(6);
    let mut marks = vec![0; most as usize];
    walk::Hull::of_words(hull)
        .and_then(|hull| tree::check(&page, hull.table.number(), hull.root, &mut marks))
        .is_ok()
}

/// The call beside the program on paper, and what is stated of its answer.
pub fn one(
    board: &mut Board,
    asked: &Asked,
    seed: &mut Seed,
    (hull, checked): (&[u64], bool),
    shot: [f32; 6],
) {
    let hull = lent_hull(seed, hull);
    let (start, end) = (three(&shot), three(&shot[3..]));
    let on_page = walk::Hull::of_words(hull)
        .and_then(|h| line::trace_line(&asked.paper(), &h, start, end, PATIENCE));
    if on_page.as_ref().err() == Some(&walk::GAVE_UP) {
        board.given_up += 1;
        return;
    }
    let Asked { calls, file, map, .. } = *asked;
    let input = || asked.input(format!("hull {}, segment {}", shown(&hull), bits_of(&shot)));
    let lent = LINE_WORDS + seed.below(3) as usize;
    let expected = Sides::paper(on_page.map(|line| line.words()));
    let mut answered = None;
    let call = |out: &mut [u64]| {
        let refusal = (calls.trace_line)(file, map, hull, &shot, out);
        answered = (refusal == 0).then(|| f32::from_bits(out[0] as u32));
        refusal
    };
    board.words("bsp_trace_line", lent, expected, call, input);
    if let Some(fraction) = answered {
        let within = fraction.is_nan() || (0.0..=1.0).contains(&fraction);
        let difference = (!within).then(|| format!("the fraction is {fraction}"));
        board.count("fractions from 0 to 1, or NaN", (0, Side::Paper), difference, input);
    }
    if checked {
        let difference = answered.is_none().then(|| "refused".to_string());
        board.count("checked roots answered", (0, Side::Paper), difference, input);
    }
}

/// Each list in turn too short is 22, before a table that is none (20).
fn short_lists(board: &mut Board, asked: &Asked, seed: &mut Seed) {
    let Asked { calls, file, map, .. } = *asked;
    let table = 3 + seed.below(3);
    let hull = hull_words(seed, table, 0);
    let floats = [0.0; 6];
    for short in 0..5 {
        let mut cut = |which: u64, full: usize| match which == short {
            true => seed.below(full as u64) as usize,
            false => full,
        };
        let (words, nine, six) = (cut(0, map.len()), cut(1, HULL_ASKED), cut(2, 6));
        let lent = cut(3, LINE_WORDS);
        let number = if short == 4 { 20 } else { 22 };
        let call = |out: &mut [u64]| {
            (calls.trace_line)(file, &map[..words], &hull[..nine], &floats[..six], out)
        };
        let input = || asked.input(format!("{words} words of a map, {nine}, {six}, {lent}"));
        board.words("bsp_trace_line", lent, Sides::paper(Err(number)), call, input);
    }
}

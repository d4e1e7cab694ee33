//! Nodes in walking order (document 02, note 11): the table that is written, beside the program on
//! paper; contents and traces by it, beside the Rust's walks and traces by the file, or beside the
//! program on paper where the Rust does not load; and tables made by hand, beside the program.

use maps::record::Plane;
use maps::world::{self, World};
use maps::Seed;
use maps::{shape, Shape};

use crate::calls::asked::Asked;
use crate::calls::words;
use crate::calls::{Calls, TRACE_WORDS};
use crate::cases::tables::{self, Made};
use crate::modes::walks::{bits_of, three, PATIENCE};
use crate::paper::walk::GAVE_UP;
use crate::paper::{self, order};
use crate::report::board::{shown, Board, Plan, Side};

pub fn run(plan: &Plan) -> bool {
    compare(&Calls::linked(), plan).print()
}

pub fn compare(calls: &Calls, plan: &Plan) -> Board {
    let mut board = Board::new();
    richter::probe::set_patience(PATIENCE);
    for (case, mut seed) in plan.seeds("order") {
        let seed = &mut seed;
        let made = if seed.once_in(40) { a_world(seed) } else { a_table(seed) };
        on_file(&mut board, calls, seed, &made, case);
        by_hand(&mut board, calls, seed, &made, case);
        short_lists(&mut board, calls, seed, &made);
    }
    richter::probe::set_patience(usize::MAX);
    board
}

/// A tree that divides a box evenly, as on a real map.
fn a_world(seed: &mut Seed) -> Made {
    let nodes = 200 + seed.below(2000) as usize;
    let slanted = [0, 40, 100][seed.below(3) as usize];
    let world = World { nodes, slanted, visibility: 0, lightmaps: 0, faces: 0 };
    Made::new(world::tables(seed, &world), &maps::Layout::plain())
}

/// A small table: a tree, a chain around 512 nodes, or nodes with any children.
fn a_table(seed: &mut Seed) -> Made {
    let wild = [0, 2, 8][seed.below(3) as usize];
    let planes = tables::few_planes(seed, wild);
    let nodes = match seed.below(8) {
        0 => tables::small_any(seed, planes.len()),
        1 => shape::nodes(seed, Shape::Chain, 505 + planes.len() * 3, planes.len()),
        _ => {
            let count = 1 + seed.below(14) as usize;
            shape::nodes(seed, Shape::Balanced, count, planes.len())
        }
    };
    tables::of_nodes(seed, planes, &nodes)
}

/// Both tables of a file from some root; now and then a map record made by hand.
fn on_file(board: &mut Board, calls: &Calls, seed: &mut Seed, made: &Made, case: u64) {
    let mut map = made.map;
    let by_hand = seed.once_in(5);
    if by_hand {
        let section = [1, 5, 9, 10][seed.below(4) as usize];
        match seed.below(3) {
            0 => map[2 * section] = (made.file.len() as u32).saturating_sub(seed.below(90) as u32),
            1 => map[2 * section + 1] += seed.below(60) as u32,
            _ => map[2 * section] = seed.below(made.file.len() as u64 + 9) as u32,
        }
    }
    let rust = if by_hand { None } else { richter::load(&made.file).ok() };
    let asked = Asked { calls, name: &|| format!("case {case}"), file: &made.file, map: &map };
    for _ in 0..4 {
        let table = seed.below(2) as u32;
        let section = [paper::RENDER_NODES, paper::CLIP_NODES][table as usize];
        let count = asked.paper().count(section);
        let root = if seed.once_in(3) { tables::root(seed, count) } else { 0 };
        let Some(list) = written(board, &asked, seed, table, root, count) else { continue };
        let hull = rust.as_ref().map(|map| map.table(table as usize).with_root(root as usize));
        for _ in 0..6 {
            let point = tables::point(seed, &made.tables.planes);
            contents(board, &asked, &list, 0, &point, hull.as_ref());
            let segment = tables::segment(seed, &made.tables.planes);
            trace(board, &asked, &list, 0, &segment, hull.as_ref());
        }
        let place = tables::root(seed, list.len() as u64 / 3);
        let planes = &made.tables.planes;
        from_place(board, &asked, seed, &list, place, planes);
    }
}

/// One walk and one trace from some place, beside the program on paper.
fn from_place(
    board: &mut Board,
    asked: &Asked,
    seed: &mut Seed,
    list: &[i32],
    place: u64,
    planes: &[Plane],
) {
    contents(board, asked, list, place, &tables::point(seed, planes), None);
    trace(board, asked, list, place, &tables::segment(seed, planes), None);
}

/// The call that writes beside the program on paper; the table, where there is one, now and then with
/// one or two words past its last three.
pub fn written(
    board: &mut Board,
    asked: &Asked,
    seed: &mut Seed,
    table: u32,
    root: u64,
    nodes: u64,
) -> Option<Vec<i32>> {
    let Asked { calls, file, map, .. } = *asked;
    let len = match seed.below(12) {
        0 => (nodes as usize).saturating_sub(1),
        1 | 2 => nodes as usize,
        _ => nodes as usize + seed.below(5) as usize,
    };
    let marks = vec![[0, 1, 0xff][seed.below(3) as usize]; len];
    let longest = 3 * nodes.min(40_000) as usize;
    let room = match seed.below(4) {
        0 => seed.below(longest as u64 + 1) as usize,
        _ => longest + seed.below(4) as usize,
    };
    let (mut wanted, mut full) = (marks.clone(), vec![77; room]);
    let expected = order::order(&asked.paper(), table, root, &mut wanted, &mut full);
    let (mut left, mut list, mut out) = (marks, vec![77; room], [7; 2]);
    let refusal = (calls.order)(file, map, table, root, &mut left, &mut list, &mut out);
    let words = [*expected.as_ref().unwrap_or(&7), 7];
    let equal = refusal == *expected.as_ref().err().unwrap_or(&0)
        && out == words
        && left == wanted
        && list == full;
    let difference = (!equal).then(|| {
        format!(
            "answers {refusal} {out:?} marks {} list {list:?}, expected {expected:?} {full:?}",
            shown(&left)
        )
    });
    board.count("bsp_order", (refusal, Side::Paper), difference, || {
        asked.input(format!("table {table}, root {root}, room {room}"))
    });
    expected.ok().map(|_| full)
}

/// The contents at a point: the Rust's by the file where there is a hull, else the program's.
pub fn contents(
    board: &mut Board,
    asked: &Asked,
    list: &[i32],
    root: u64,
    point: &[f32],
    hull: Option<&richter::Hull>,
) {
    let mut out = [7; 3];
    let refusal = (asked.calls.order_contents)(asked.file, asked.map, list, root, point, &mut out);
    let on_paper = order::contents(&asked.paper(), list, root, three(point));
    let visits = on_paper.nodes.len() as u64;
    let paper = on_paper.value.map(|code| vec![code, visits]);
    let rust = hull.and_then(|hull| {
        words::walk(hull.contents_at_point(three(point)), |code, visits| vec![code as u64, visits])
    });
    judge(
        board,
        asked,
        "bsp_order_contents",
        (refusal, &out),
        paper,
        rust.map(|told| told.0),
        || format!("list {}, place {root}, point {}", shown(&list), bits_of(point)),
    );
}

/// The same of a trace.
pub fn trace(
    board: &mut Board,
    asked: &Asked,
    list: &[i32],
    root: u64,
    segment: &[f32],
    hull: Option<&richter::Hull>,
) {
    let ends = [three(segment), three(&segment[3..])];
    let on_paper = order::trace(&asked.paper(), list, root, ends, PATIENCE);
    if let Err(GAVE_UP) = on_paper.value {
        return;
    }
    let mut out = [7; TRACE_WORDS + 1];
    let refusal = (asked.calls.order_trace)(asked.file, asked.map, list, root, segment, &mut out);
    let visits = on_paper.nodes.len() as u64;
    let paper = on_paper.value.map(|trace| trace.words(visits));
    let rust = hull.and_then(|hull| words::walk(hull.trace(ends[0], ends[1]), words::trace));
    judge(board, asked, "bsp_order_trace", (refusal, &out), paper, rust.map(|told| told.0), || {
        format!("list {}, place {root}, segment {}", shown(&list), bits_of(segment))
    });
}

/// An answer beside the Rust's where it has one, and beside the program's.
fn judge(
    board: &mut Board,
    asked: &Asked,
    call: &'static str,
    (refusal, out): (u32, &[u64]),
    paper: Result<Vec<u64>, u32>,
    rust: Option<Result<Vec<u64>, u32>>,
    input: impl Fn() -> String,
) {
    let side = if rust.is_some() { Side::Rust } else { Side::Paper };
    let says = |expected: &Result<Vec<u64>, u32>| match expected {
        Err(number) => refusal == *number && out.iter().all(|word| *word == 7),
        Ok(words) => {
            refusal == 0
                && out[..words.len()] == words[..]
                && out[words.len()..].iter().all(|w| *w == 7)
        }
    };
    let equal = says(&paper) && rust.as_ref().is_none_or(says);
    let difference = (!equal)
        .then(|| format!("answers {refusal} {out:?}, on paper {paper:?}, the Rust {rust:?}"));
    board.count(call, (refusal, side), difference, || asked.input(input()));
}

/// Tables that nobody wrote: planes and children in and out of range, codes that are none, words past
/// the last three, cycles, shared parts; and chains around 512 rows.
fn by_hand(board: &mut Board, calls: &Calls, seed: &mut Seed, made: &Made, case: u64) {
    let asked = Asked { calls, name: &|| format!("case {case}"), file: &made.file, map: &made.map };
    let planes = &made.tables.planes;
    for _ in 0..4 {
        let list = if seed.once_in(6) {
            a_chain(seed, planes.len())
        } else {
            any_rows(seed, planes.len())
        };
        let root = if seed.once_in(2) { 0 } else { tables::root(seed, list.len() as u64 / 3) };
        from_place(board, &asked, seed, &list, root, planes);
    }
}

fn a_code(seed: &mut Seed) -> i32 {
    -([1, 2, 3, 4, 5, 9, 10, 11, 12, 13, 14][seed.below(11) as usize])
}

fn any_rows(seed: &mut Seed, planes: usize) -> Vec<i32> {
    let rows = seed.below(9) as usize;
    let odd = [4, 12, 60][seed.below(3) as usize];
    let mut list = Vec::new();
    for place in 0..rows {
        list.push(match seed.once_in(odd) {
            true => [-1, i32::MIN, i32::MAX, planes as i32][seed.below(4) as usize],
            false => seed.below(planes as u64) as i32,
        });
        for _ in 0..2 {
            list.push(match seed.below(4) {
                0 if seed.once_in(odd) => {
                    [-6, -7, -8, -15, -16, i32::MIN, i32::MAX, rows as i32][seed.below(8) as usize]
                }
                0 | 1 => a_code(seed),
                2 => (place as i32 + 1).min(rows as i32 - 1),
                _ => seed.below(rows as u64) as i32,
            });
        }
    }
    for _ in 0..seed.below(3) {
        list.push(seed.below(9) as i32 - 4);
    }
    list
}

/// Each row's front child or back child is the next row.
fn a_chain(seed: &mut Seed, planes: usize) -> Vec<i32> {
    let rows = 508 + seed.below(8) as i32;
    let plane = seed.below(planes as u64) as i32;
    let mut list = Vec::new();
    for place in 0..rows {
        let next = if place + 1 < rows { place + 1 } else { a_code(seed) };
        list.extend([plane, next, next]);
    }
    list
}

/// Each list in turn too short is 22, before a table that is none (20); nothing is written.
fn short_lists(board: &mut Board, calls: &Calls, seed: &mut Seed, made: &Made) {
    let table = 2 + seed.below(3) as u32;
    let floats = [0.5; 6];
    for short in 0..4 {
        let mut cut = |which: u64, full: usize| match which == short {
            true => seed.below(full as u64) as usize,
            false => full,
        };
        let (words, one) = (cut(0, 31), cut(1, 1));
        let number = if short < 2 { 22 } else { 20 };
        let (mut marks, mut list, mut out) = ([0xa5; 3], [77; 9], vec![7; one]);
        let map = &made.map[..words];
        let refusal = (calls.order)(&made.file, map, table, 0, &mut marks, &mut list, &mut out);
        let kept = marks == [0xa5; 3] && list == [77; 9] && out.iter().all(|word| *word == 7);
        short_one(board, "bsp_order", (refusal, number), kept, words);
        let (words, three, two) = (cut(0, 31), cut(1, 3), cut(2, 2));
        if short < 3 {
            let mut out = vec![7; two];
            let map = &made.map[..words];
            let lent = &floats[..three];
            let refusal = (calls.order_contents)(&made.file, map, &[9], 7, lent, &mut out);
            let kept = out.iter().all(|word| *word == 7);
            short_one(board, "bsp_order_contents", (refusal, 22), kept, words);
        }
        let (words, six, all) = (cut(0, 31), cut(1, 6), cut(2, TRACE_WORDS));
        if short < 3 {
            let mut out = vec![7; all];
            let map = &made.map[..words];
            let refusal = (calls.order_trace)(&made.file, map, &[9], 7, &floats[..six], &mut out);
            let kept = out.iter().all(|word| *word == 7);
            short_one(board, "bsp_order_trace", (refusal, 22), kept, words);
        }
    }
}

fn short_one(
    board: &mut Board,
    call: &'static str,
    (refusal, number): (u32, u32),
    kept: bool,
    words: usize,
) {
    let difference =
        (refusal != number || !kept).then(|| format!("answers {refusal}, expected {number}"));
    board.count(call, (refusal, Side::Paper), difference, || {
        (words, format!("{words} words of a map"))
    });
}

//! Point contents, leaf lookups and traces with the nodes they enter, beside the published Rust
//! and document 01 read as a program: on generated maps, on chains, on tables with shared branches
//! and loops, and on boxes. And note 13 of document 02 on the Rust's own answers: where its trace
//! and its walk from the trace's start are both answered and the start is finite, the trace started
//! solid exactly if the walk says Solid.

use maps::record::Plane;
use maps::world::{self, World};
use maps::{make, Seed};
use richter::map::RenderChild;
use richter::Hull;

use crate::calls::asked::Asked;
use crate::calls::words::{self, Words};
use crate::calls::{Calls, HULL_ASKED, HULL_WORDS, TRACE_WORDS, WALK_WORDS};
use crate::cases::tables::{self, Made};
use crate::modes::{sizes, tree};
use crate::paper::{self, walk};
use crate::report::board::{shown, Board, Plan, Side, Sides};

/// A trace of more nodes than this is left out.
pub const PATIENCE: usize = 300_000;

/// The contents code Solid.
const SOLID: u32 = 2;

/// The word of a trace's answer that says whether it started solid.
const START_SOLID: usize = 2;

pub fn run(plan: &Plan) -> bool {
    compare(&Calls::linked(), plan).print()
}

pub fn compare(calls: &Calls, plan: &Plan) -> Board {
    let mut board = Board::new();
    richter::probe::set_patience(PATIENCE);
    infinite_start(&mut board);
    for (case, mut seed) in plan.seeds("walks") {
        let seed = &mut seed;
        if seed.once_in(60) {
            on_world(&mut board, calls, seed, case);
            continue;
        }
        match seed.below(10) {
            0..=2 => on_map(&mut board, calls, seed, case),
            3 => on_boxes(&mut board, calls, seed, case),
            4 => outside_leaves(&mut board, calls, seed, case),
            kind => on_table(&mut board, calls, seed, case, kind),
        }
    }
    richter::probe::set_patience(usize::MAX);
    board
}

/// Words and nodes of a walk on paper; none where it gave up.
fn on_paper<T>(
    walked: walk::Walked<T>,
    words: impl FnOnce(T, u64) -> Vec<u64>,
) -> Option<(Words, Vec<u32>)> {
    if walked.value.as_ref().err() == Some(&walk::GAVE_UP) {
        return None;
    }
    let visits = walked.nodes.len() as u64;
    Some((walked.value.map(|value| words(value, visits)), walked.nodes))
}

fn with_visits(value: u64, visits: u64) -> Vec<u64> {
    vec![value, visits]
}

pub fn three(floats: &[f32]) -> [f32; 3] {
    [floats[0], floats[1], floats[2]]
}

/// A list's length for an answer: enough, just enough, one too few or none.
pub fn lent_list(seed: &mut Seed, needed: usize) -> usize {
    match seed.below(6) {
        0 => needed.saturating_sub(1),
        1 => 0,
        2 | 3 => needed,
        _ => needed + 1 + seed.below(5) as usize,
    }
}

type Found = Option<(Words, Vec<u32>)>;

/// The answer and the list of one walk beside what both sides found. `answers` and `lists` are the
/// two calls.
fn both_calls(
    board: &mut Board,
    seed: &mut Seed,
    (answers, lists): (&str, &str),
    words: usize,
    found: (Found, Found),
    (call, list_call): (impl FnOnce(&mut [u64]) -> u32, impl FnOnce(&mut [u32], &mut [u64]) -> u32),
    input: impl Fn() -> (usize, String),
) {
    let (rust, paper) = found;
    let entered = |found: &Found| {
        found.as_ref().map(|(words, nodes)| match words {
            Ok(_) => Ok(nodes.clone()),
            Err(number) => Err(*number),
        })
    };
    let lists_of = Sides { rust: entered(&rust), paper: entered(&paper) };
    let needed = rust.as_ref().or(paper.as_ref()).map_or(0, |(_, nodes)| nodes.len());
    let sides = Sides { rust: rust.map(|f| f.0), paper: paper.map(|f| f.0) };
    board.words(answers, words + seed.below(3) as usize, sides, call, &input);
    let lent = (lent_list(seed, needed), 1 + seed.below(2) as usize);
    board.list(lists, lent, lists_of, list_call, input);
}

/// Point contents of a hull. The Rust's hull may be missing.
pub fn contents(
    board: &mut Board,
    asked: &Asked,
    seed: &mut Seed,
    hull: &[u64],
    rust: Option<&Hull>,
    p: [f32; 3],
) {
    let hull = lent_hull(seed, hull);
    let on_page = walk::Hull::of_words(hull).map(|h| walk::contents(&asked.paper(), &h, p));
    let paper = match on_page {
        Ok(walked) => on_paper(walked, with_visits),
        Err(number) => Some((Err(number), Vec::new())),
    };
    let rust = rust.and_then(|hull| {
        words::walk(hull.contents_at_point(p), |code, visits| vec![code as u64, visits])
    });
    let Asked { calls, file, map, .. } = *asked;
    both_calls(
        board,
        seed,
        ("bsp_contents", "bsp_contents_nodes"),
        WALK_WORDS,
        (rust, paper),
        (
            |out| (calls.contents)(file, map, hull, &p, out),
            |list, out| (calls.contents_nodes)(file, map, hull, &p, list, out),
        ),
        || asked.input(format!("hull {}, point {}", shown(&hull), bits_of(&p))),
    );
}

/// A trace of a hull. The Rust's hull may be missing. A trace that takes too long is left out.
pub fn trace(
    board: &mut Board,
    asked: &Asked,
    seed: &mut Seed,
    hull: &[u64],
    rust: Option<&Hull>,
    segment: [f32; 6],
) {
    let hull = lent_hull(seed, hull);
    let (start, end) = (three(&segment), three(&segment[3..]));
    let found = rust.map(|hull| words::walk(hull.trace(start, end), words::trace));
    let on_page =
        walk::Hull::of_words(hull).map(|h| walk::trace(&asked.paper(), &h, start, end, PATIENCE));
    let paper = match on_page {
        Ok(walked) => on_paper(walked, |trace, visits| trace.words(visits)),
        Err(number) => Some((Err(number), Vec::new())),
    };
    if found == Some(None) || paper.is_none() {
        board.given_up += 1;
        return;
    }
    let Asked { calls, file, map, .. } = *asked;
    let input = || asked.input(format!("hull {}, segment {}", shown(&hull), bits_of(&segment)));
    if let (Some(rust), Some(Some((Ok(words), _)))) = (rust, &found) {
        started_solid(board, rust, start, words[START_SOLID] == 1, input);
    }
    both_calls(
        board,
        seed,
        ("bsp_trace", "bsp_trace_nodes"),
        TRACE_WORDS,
        (found.flatten(), paper),
        (
            |out| (calls.trace)(file, map, hull, &segment, out),
            |list, out| (calls.trace_nodes)(file, map, hull, &segment, list, out),
        ),
        input,
    );
}

/// Note 13 for one trace that the Rust answered, beside the Rust's own walk from its start.
fn started_solid(
    board: &mut Board,
    hull: &Hull,
    start: [f32; 3],
    flag: bool,
    input: impl FnOnce() -> (usize, String),
) {
    let finite = start.iter().all(|x| x.is_finite());
    let (true, Ok(code)) = (finite, hull.contents_at_point(start).value) else { return };
    let solid = code == SOLID;
    let line = match solid {
        true => "Rust, a start in Solid",
        false => "Rust, a start elsewhere",
    };
    let difference = match flag == solid {
        true => None,
        false => Some(format!("started solid is {flag}, the contents are {code}")),
    };
    board.count(line, (0, Side::Rust), difference, input);
}

/// Why note 13 asks for a finite start. On the face x = -inf of a box the Rust's walk says Solid,
/// since -inf is at least -inf, and its trace did not start solid, since their difference is no
/// number.
fn infinite_start(board: &mut Board) {
    let (mins, maxs) = ([f32::NEG_INFINITY, -1.0, -1.0], [1.0; 3]);
    let hull = Hull::for_bounds(mins, maxs).expect("a box");
    let start = [f32::NEG_INFINITY, 0.0, 0.0];
    let walked = hull.contents_at_point(start).value;
    let flag = hull.trace(start, start).value.map(|trace| trace.start_solid);
    let difference = match (walked, flag) {
        (Ok(SOLID), Ok(false)) => None,
        found => Some(format!("walk and started solid are {found:?}")),
    };
    board.count("Rust, an infinite start", (0, Side::Rust), difference, || {
        (0, format!("bounds {} {}, start {}", bits_of(&mins), bits_of(&maxs), bits_of(&start)))
    });
}

/// A leaf lookup from a root; `rust` is what the Rust answers, if it can.
pub fn find_leaf(
    board: &mut Board,
    asked: &Asked,
    seed: &mut Seed,
    root: u64,
    p: [f32; 3],
    rust: Option<richter::Answer<usize>>,
) {
    let rust = rust.and_then(|a| words::walk(a, |leaf, visits| vec![leaf as u64, visits]));
    // a leaf outside its table is refused when met; over tables made by hand the Rust answers it
    let leaves = asked.paper().count(paper::LEAVES);
    let rust = rust.filter(|(words, _)| words.as_ref().map_or(true, |words| words[0] < leaves));
    let paper = on_paper(walk::find_leaf(&asked.paper(), root, p), with_visits);
    let Asked { calls, file, map, .. } = *asked;
    both_calls(
        board,
        seed,
        ("bsp_find_leaf", "bsp_find_leaf_nodes"),
        WALK_WORDS,
        (rust, paper),
        (
            |out| (calls.find_leaf)(file, map, root, &p, out),
            |list, out| (calls.find_leaf_nodes)(file, map, root, &p, list, out),
        ),
        || asked.input(format!("root {root}, point {}", bits_of(&p))),
    );
}

/// Floats by their bits.
pub fn bits_of(floats: &[f32]) -> String {
    let parts: Vec<String> = floats.iter().map(|x| format!("{:08x}", x.to_bits())).collect();
    parts.join(" ")
}

/// Hull words of a table with this root; the words that a walk does not use hold anything.
pub fn hull_words(seed: &mut Seed, table: u64, root: u64) -> [u64; HULL_WORDS] {
    let mut words = [0; HULL_WORDS];
    for word in words.iter_mut() {
        *word = seed.next() >> seed.below(64);
    }
    words[0] = table;
    words[1] = root;
    words
}

/// So much of a hull's words as a call asks for, or more: it does not look at the others.
pub fn lent_hull<'a>(seed: &mut Seed, hull: &'a [u64]) -> &'a [u64] {
    &hull[..HULL_ASKED + seed.below((hull.len() - HULL_ASKED) as u64 + 1) as usize]
}

/// Every call about one file whose tables the Rust has: the model's hulls, and both tables from
/// other roots.
fn on_map(board: &mut Board, calls: &Calls, seed: &mut Seed, case: u64) {
    let most = if seed.once_in(20) { 600 } else { 30 };
    let what = maps::Plan::any(seed, most);
    let (made, layout) = make(seed, &what);
    let made = Made::new(made, &layout);
    let Ok(rust) = richter::load(&made.file) else {
        panic!("case {case}: the Rust refuses a map made to load");
    };
    let asked = Asked { calls, name: &|| format!("case {case}"), file: &made.file, map: &made.map };
    hulls(board, &asked, seed, &rust, what.models as u64);
    for _ in 0..12 {
        let p = tables::point(seed, &made.tables.planes);
        let s = tables::segment(seed, &made.tables.planes);
        from_roots(board, &asked, seed, &rust, p, s);
    }
    short_lists(board, &asked, seed);
}

/// A tree that divides a box evenly, its planes axis or slanted, as on a real map.
fn on_world(board: &mut Board, calls: &Calls, seed: &mut Seed, case: u64) {
    let nodes = 200 + seed.below(3000) as usize;
    let slanted = [0, 40, 100][seed.below(3) as usize];
    let world = World { nodes, slanted, visibility: 0, lightmaps: 0, faces: 0 };
    let made = Made::new(world::tables(seed, &world), &maps::Layout::plain());
    let Ok(rust) = richter::load(&made.file) else {
        panic!("case {case}: the Rust refuses a world");
    };
    let asked = Asked { calls, name: &|| format!("case {case}"), file: &made.file, map: &made.map };
    for _ in 0..100 {
        let mut p = [0; 3].map(|_| maps::floats::half(seed) * 2.0 * world::SIDE);
        if seed.once_in(4) {
            p = tables::point(seed, &made.tables.planes);
        }
        let way = maps::floats::unit(seed);
        let length = [1.0, 100.0, 4000.0][seed.below(3) as usize];
        let end = [0, 1, 2].map(|at| p[at] + length * way[at]);
        let s = [p[0], p[1], p[2], end[0], end[1], end[2]];
        from_roots(board, &asked, seed, &rust, p, s);
    }
}

/// Both tables of a map that the Rust has, each from some root.
pub fn from_roots(
    board: &mut Board,
    asked: &Asked,
    seed: &mut Seed,
    rust: &richter::Map,
    p: [f32; 3],
    s: [f32; 6],
) {
    let counts = [paper::RENDER_NODES, paper::CLIP_NODES].map(|at| asked.paper().count(at));
    for (table, count) in counts.into_iter().enumerate() {
        let root = tables::root(seed, count);
        let words = hull_words(seed, table as u64, root);
        let hull = rust.table(table).with_root(root as usize);
        contents(board, asked, seed, &words, Some(&hull), p);
        trace(board, asked, seed, &words, Some(&hull), s);
    }
    let root = tables::root(seed, counts[0]);
    let found = match root {
        0 if counts[0] > 0 => rust.find_leaf(p),
        root => rust.leaf_finder(root as usize).find_leaf(p),
    };
    find_leaf(board, asked, seed, root, p, Some(found));
}

/// `bsp_hull` for every model and hull, and walks from what it answers.
fn hulls(board: &mut Board, asked: &Asked, seed: &mut Seed, rust: &richter::Map, models: u64) {
    for model in (0..models + 2).chain([1 << 32, u64::MAX]) {
        for index in [0, 1, 2, 3, 4, 1 << 32, u64::MAX] {
            one_hull(board, asked, seed, rust, (model, index), &[]);
        }
    }
}

/// `bsp_hull`, and a walk and a trace from what it answers, at or near these planes.
pub fn one_hull(
    board: &mut Board,
    asked: &Asked,
    seed: &mut Seed,
    rust: &richter::Map,
    (model, index): (u64, u64),
    planes: &[Plane],
) {
    let Asked { calls, file, map, .. } = *asked;
    let hull = rust.hull(model as usize, index as usize);
    let expected = match &hull {
        Ok(hull) => Ok(words::hull(index.min(1), hull)),
        Err(refusal) => Err(words::number(*refusal).expect("a number")),
    };
    let input = || asked.input(format!("model {model}, hull {index}"));
    let sides = Sides::both(expected.clone(), asked.paper().hull_words(model, index));
    let call = |out: &mut [u64]| (calls.hull)(file, map, model, index, out);
    board.words("bsp_hull", HULL_WORDS + seed.below(3) as usize, sides, call, input);
    if let (Ok(hull), Ok(words)) = (hull, expected) {
        let p = tables::point(seed, planes);
        contents(board, asked, seed, &words, Some(&hull), p);
        let s = tables::segment(seed, planes);
        trace(board, asked, seed, &words, Some(&hull), s);
        let section = if index == 0 { paper::RENDER_NODES } else { paper::CLIP_NODES };
        let marks = tree::marks(seed, asked.paper().count(section) as usize);
        sizes::ask(board, asked, lent_hull(seed, &words), Some(&hull), &marks);
    }
}

/// Chains to 512 nodes and beyond, shared branches, and small tables with loops.
fn on_table(board: &mut Board, calls: &Calls, seed: &mut Seed, case: u64, kind: u64) {
    let wild = [0, 2, 8][seed.below(3) as usize];
    let planes = tables::few_planes(seed, wild);
    let p = tables::point(seed, &planes);
    let nodes = match kind {
        5 => {
            let count = match seed.below(4) {
                0 => 1 + seed.below(40),
                1 => 480 + seed.below(80),
                _ => 511 + seed.below(4),
            };
            tables::chain_along(seed, &planes, count as usize, p)
        }
        6 => {
            let count = if seed.once_in(8) { 505 + seed.below(12) } else { 1 + seed.below(60) };
            tables::shared(seed, planes.len(), count as usize)
        }
        _ => tables::small_any(seed, planes.len()),
    };
    let made = tables::of_nodes(seed, planes, &nodes);
    let Ok(rust) = richter::load(&made.file) else {
        panic!("case {case}: the Rust refuses a table made to load");
    };
    let asked = Asked { calls, name: &|| format!("case {case}"), file: &made.file, map: &made.map };
    for _ in 0..4 {
        let s = tables::segment_at(seed, &made.tables.planes, p);
        from_roots(board, &asked, seed, &rust, p, s);
        let p = tables::point(seed, &made.tables.planes);
        let s = tables::segment(seed, &made.tables.planes);
        from_roots(board, &asked, seed, &rust, p, s);
    }
}

/// Render nodes that name leaves outside their table: 30 when one is met. Loading in the Rust
/// refuses them, so leaf lookup goes over tables made by hand there.
fn outside_leaves(board: &mut Board, calls: &Calls, seed: &mut Seed, case: u64) {
    let wild = [0, 8][seed.below(2) as usize];
    let planes = tables::few_planes(seed, wild);
    let nodes = tables::small_any(seed, planes.len());
    let mut made = tables::of_nodes(seed, planes, &nodes).tables;
    let leaves = made.leaves.len() as i16;
    for node in made.render_nodes.iter_mut() {
        for child in node.children.iter_mut().filter(|child| **child < 0) {
            *child = -1 - seed.below(leaves as u64 + 2) as i16;
        }
        if seed.once_in(30) {
            node.children[0] = i16::MIN;
        }
    }
    let made = Made::new(made, &maps::Layout::plain());
    let asked = Asked { calls, name: &|| format!("case {case}"), file: &made.file, map: &made.map };
    let rust_planes: Vec<_> = made.tables.planes.iter().map(tables::rust_plane).collect();
    let child = |c: i16| match c {
        0.. => RenderChild::Node(c as usize),
        _ => RenderChild::Leaf(!c as usize),
    };
    let rust_nodes: Vec<_> = made
        .tables
        .render_nodes
        .iter()
        .map(|n| (n.plane as usize, n.children.map(child)))
        .collect();
    for _ in 0..8 {
        let root = tables::root(seed, made.tables.render_nodes.len() as u64);
        let finder = richter::map::LeafFinder::by_hand(&rust_planes, &rust_nodes, root as usize);
        let p = tables::point(seed, &made.tables.planes);
        find_leaf(board, &asked, seed, root, p, Some(finder.find_leaf(p)));
        let words = hull_words(seed, 0, root);
        contents(board, &asked, seed, &words, None, p);
        let s = tables::segment(seed, &made.tables.planes);
        trace(board, &asked, seed, &words, None, s);
    }
}

/// Boxes over no file.
fn on_boxes(board: &mut Board, calls: &Calls, seed: &mut Seed, case: u64) {
    let name = || format!("case {case}");
    let asked = Asked { calls, name: &name, file: &[], map: &[0; 31] };
    for _ in 0..8 {
        one_box(board, &asked, seed, 4);
    }
    short_boxes(board, calls, seed);
}

/// A box: made by the call, and words made by hand with any bounds and root; so many walks and
/// traces.
pub fn one_box(board: &mut Board, asked: &Asked, seed: &mut Seed, walks: u32) {
    let calls = asked.calls;
    let bounds = bounds(seed);
    let made = Hull::for_bounds(three(&bounds), three(&bounds[3..]));
    let expected = match &made {
        Ok(hull) => Ok(words::hull(2, hull)),
        Err(refusal) => Err(words::number(*refusal).expect("a number")),
    };
    let input = || asked.input(format!("bounds {}", bits_of(&bounds)));
    let sides = Sides::both(expected.clone(), walk::box_words(&bounds));
    let lent = HULL_WORDS + seed.below(3) as usize;
    board.words("bsp_box", lent, sides, |out| (calls.bounds)(&bounds, out), input);
    let root = if seed.once_in(3) { tables::root(seed, 6) } else { 0 };
    let hull = box_by_hand(&bounds, root);
    let mut words = expected.unwrap_or_else(|_| hull_words(seed, 2, root).to_vec());
    words[1] = root;
    for (at, bound) in bounds.iter().enumerate() {
        // the low 32 bits count
        words[3 + at] = bound.to_bits() as u64 | (seed.next() >> 32) << 32;
    }
    let marks = tree::marks(seed, 6);
    sizes::ask(board, asked, lent_hull(seed, &words), None, &marks);
    let planes = box_planes(&bounds);
    for _ in 0..walks {
        let p = tables::point(seed, &planes);
        contents(board, asked, seed, &words, Some(&hull), p);
        let s = tables::segment(seed, &planes);
        trace(board, asked, seed, &words, Some(&hull), s);
    }
}

/// Mins and maxs, most of them in order.
pub fn bounds(seed: &mut Seed) -> [f32; 6] {
    let mut bounds = [0.0; 6];
    for at in 0..3 {
        let a = maps::floats::coordinate(seed, 6);
        let b = maps::floats::coordinate(seed, 6);
        bounds[at] = a.min(b);
        bounds[at + 3] = if seed.once_in(30) { a.min(b) } else { a.max(b) };
        if seed.once_in(20) {
            bounds.swap(at, at + 3);
        }
        if seed.once_in(15) {
            bounds[at + 3 * seed.below(2) as usize] = tables::odd_float(seed);
        }
    }
    bounds
}

/// The planes of a box as a file would hold them, for points that lie on them.
pub fn box_planes(bounds: &[f32; 6]) -> Vec<Plane> {
    (0..6).map(|at| Plane { normal: [0.0; 3], dist: bounds[at], kind: (at % 3) as i32 }).collect()
}

/// The tables that `for_bounds` makes, with these bounds in the place of its own.
fn box_by_hand(bounds: &[f32; 6], root: u64) -> Hull {
    let unit = Hull::for_bounds([-1.0; 3], [1.0; 3]).expect("a box");
    let planes: Vec<_> = unit
        .planes()
        .iter()
        .map(|p| {
            let at = p.kind as usize + if p.dist > 0.0 { 3 } else { 0 };
            richter::Plane::axis(p.kind, bounds[at])
        })
        .collect();
    Hull::by_hand(&planes, &unit.nodes(), root as usize)
}

fn short_boxes(board: &mut Board, calls: &Calls, seed: &mut Seed) {
    let bounds = [1.0f32, 1.0, 1.0, 0.0, 0.0, 0.0];
    let few = seed.below(6) as usize;
    let input = || (0, format!("{few} bounds"));
    let refused = || Sides::paper(Err(22));
    board.words("bsp_box", HULL_WORDS, refused(), |out| (calls.bounds)(&bounds[..few], out), input);
    let lent = seed.below(HULL_WORDS as u64) as usize;
    board.words("bsp_box", lent, refused(), |out| (calls.bounds)(&bounds, out), input);
}

/// Each list in turn too short is 22, before a table that is none; that is 20, before anything
/// else.
fn short_lists(board: &mut Board, asked: &Asked, seed: &mut Seed) {
    let root = tables::root(seed, 2);
    let table = [3, 4, 1 << 32, u64::MAX][seed.below(4) as usize];
    let hull = hull_words(seed, table, root);
    let floats = [0.0; 6];
    for short in 0..5 {
        let number = if short == 4 { 20 } else { 22 };
        let mut cut = |which: u64, full: usize| match which == short {
            true => seed.below(full as u64) as usize,
            false => full,
        };
        let lent = Lent {
            map: &asked.map[..cut(0, asked.map.len())],
            hull: &hull[..cut(1, HULL_ASKED)],
            root,
            point: &floats[..cut(2, 3)],
            segment: &floats[..cut(2, 6)],
        };
        let words = [cut(3, WALK_WORDS), cut(3, TRACE_WORDS), cut(3, 1)];
        refused_walks(board, asked, &lent, words, number);
        if short != 1 && short != 4 {
            refused_leaves(board, asked, &lent, words, number);
        }
    }
    short_hulls(board, asked, seed);
}

/// The same for the hull of a model, whatever its number.
fn short_hulls(board: &mut Board, asked: &Asked, seed: &mut Seed) {
    let Asked { calls, file, map, .. } = *asked;
    let (model, index) = (seed.below(2) * u64::MAX, seed.below(5));
    let few = seed.below(HULL_WORDS as u64) as usize;
    for (words, lent) in [(seed.below(31) as usize, HULL_WORDS), (31, few)] {
        let call = |out: &mut [u64]| (calls.hull)(file, &map[..words], model, index, out);
        let input = || asked.input(format!("{words} words of a map, {lent} of a hull"));
        board.words("bsp_hull", lent, Sides::paper(Err(22)), call, input);
    }
}

/// What a call is lent.
struct Lent<'a> {
    map: &'a [u32],
    hull: &'a [u64],
    root: u64,
    point: &'a [f32],
    segment: &'a [f32],
}

/// The calls on a hull with these lists, and so many words for a walk, a trace and a list's length.
fn refused_walks(board: &mut Board, asked: &Asked, lent: &Lent, words: [usize; 3], number: u32) {
    let Lent { map, hull, point, segment, .. } = *lent;
    let Asked { calls, file, .. } = *asked;
    let input = || asked.input(format!("lists too short, hull {}", shown(&hull)));
    let refused = || Sides::paper(Err(number));
    let call = |out: &mut [u64]| (calls.contents)(file, map, hull, point, out);
    board.words("bsp_contents", words[0], refused(), call, input);
    let call = |out: &mut [u64]| (calls.trace)(file, map, hull, segment, out);
    board.words("bsp_trace", words[1], refused(), call, input);
    let refused = || Sides::paper(Err(number));
    let call = |list: &mut [u32], out: &mut [u64]| {
        (calls.contents_nodes)(file, map, hull, point, list, out)
    };
    board.list("bsp_contents_nodes", (3, words[2]), refused(), call, input);
    let call = |list: &mut [u32], out: &mut [u64]| {
        (calls.trace_nodes)(file, map, hull, segment, list, out)
    };
    board.list("bsp_trace_nodes", (3, words[2]), refused(), call, input);
}

/// The same for leaf lookups, which take no hull.
fn refused_leaves(board: &mut Board, asked: &Asked, lent: &Lent, words: [usize; 3], number: u32) {
    let Lent { map, root, point, .. } = *lent;
    let Asked { calls, file, .. } = *asked;
    let input = || asked.input(format!("lists too short, root {root}"));
    let refused = Sides::paper(Err(number));
    let call = |out: &mut [u64]| (calls.find_leaf)(file, map, root, point, out);
    board.words("bsp_find_leaf", words[0], refused, call, input);
    let refused = Sides::paper(Err(number));
    let call = |list: &mut [u32], out: &mut [u64]| {
        (calls.find_leaf_nodes)(file, map, root, point, list, out)
    };
    board.list("bsp_find_leaf_nodes", (3, words[2]), refused, call, input);
}

#[cfg(test)]
mod tests {
    use super::*;

    #[test]
    fn a_flag_that_is_not_the_walks_is_noticed() {
        let hull = Hull::for_bounds([-1.0; 3], [1.0; 3]).expect("a box");
        let blamed = |start: [f32; 3], flag: bool| {
            let mut board = Board::new();
            started_solid(&mut board, &hull, start, flag, || (0, String::new()));
            board.blamed()
        };
        assert_eq!(blamed([0.0; 3], false), ["Rust, a start in Solid"]);
        assert_eq!(blamed([2.0; 3], true), ["Rust, a start elsewhere"]);
        assert!(blamed([0.0; 3], true).is_empty());
        assert!(blamed([2.0; 3], false).is_empty());
        assert!(blamed([f32::INFINITY, 0.0, 0.0], true).is_empty());
    }

    #[test]
    fn an_infinite_start_is_as_said() {
        let mut board = Board::new();
        infinite_start(&mut board);
        assert!(board.blamed().is_empty());
    }
}

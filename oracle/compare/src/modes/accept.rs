//! Whole-map acceptance (document 02, note 4) beside the program on paper: one fault planted at each
//! check, damaged maps, map records made by hand, marks too short; and on each map that passed, the
//! Rust's own walks, traces and rows, each of which must be answered.

use maps::record::{ClipNode, Tables};
use maps::world::{self, World};
use maps::{make, Layout, Seed};

use crate::calls::asked::Asked;
use crate::calls::Calls;
use crate::cases::tables::{self, Made};
use crate::modes::records::map_of_header;
use crate::modes::{hand_made, walks};
use crate::paper::{self, accept, MAP_WORDS};
use crate::report::board::{shown, Board, Plan, Side};

/// Points and segments asked of each root of a map that passed.
const ASKED: usize = 12;

pub fn run(plan: &Plan) -> bool {
    compare(&Calls::linked(), plan).print()
}

pub fn compare(calls: &Calls, plan: &Plan) -> Board {
    let mut board = Board::new();
    richter::probe::set_patience(walks::PATIENCE);
    for (case, mut seed) in plan.seeds("accept") {
        let seed = &mut seed;
        match seed.below(6) {
            0 => planted(&mut board, calls, seed, case),
            1 | 2 => damaged(&mut board, calls, seed, case),
            _ => by_hand(&mut board, calls, seed, case),
        }
    }
    richter::probe::set_patience(usize::MAX);
    board
}

/// A map with every kind of record, which passes.
fn good(seed: &mut Seed) -> Tables {
    let nodes = 2 + seed.below(40) as usize;
    let faces = 2 + seed.below(6) as usize;
    let visibility = 30 + seed.below(60) as usize;
    let world = World { nodes, slanted: 20, visibility, lightmaps: 9, faces };
    let mut tables = world::tables(seed, &world);
    let mut second = tables.models[0];
    tables.models[0].leaves = 1;
    tables.models[0].faces = 1;
    (second.leaves, second.face, second.faces) = (tables.leaves.len() as i32 - 2, 1, 1);
    second.roots = [1, 1, 1, 0];
    tables.models.push(second);
    for leaf in tables.leaves.iter_mut() {
        (leaf.facelist, leaf.faces) = (1, 1);
    }
    tables
}

/// A fault at one check.
type Plant = fn(&mut Tables, &mut Seed);

/// Each check in the note's order, with the number that the note gives for its fault.
const FAULTS: [(&str, u32, Plant); 21] = [
    ("face: plane at the count", 35, |t, s| {
        let count = t.planes.len();
        pick(&mut t.faces, s).plane = count as i16
    }),
    ("face: texture info at the count", 35, |t, s| {
        let count = t.texinfos.len();
        pick(&mut t.faces, s).texinfo = count as i16
    }),
    ("face: edges one too far", 35, |t, s| {
        let count = t.edgelist.len() as i32;
        let face = pick(&mut t.faces, s);
        face.edge = count - face.edges as i32 + 1
    }),
    ("edge list: at the edge count", 35, |t, s| {
        let count = t.edges.len() as i32;
        *pick(&mut t.edgelist, s) = count
    }),
    ("edge list: the least entry", 35, |t, s| *pick(&mut t.edgelist, s) = i32::MIN),
    ("edge: first vertex at the count", 35, |t, s| {
        let count = t.vertices.len() as u16;
        pick(&mut t.edges, s)[0] = count
    }),
    ("edge: second vertex at the count", 35, |t, s| {
        let count = t.vertices.len() as u16;
        pick(&mut t.edges, s)[1] = count
    }),
    ("leaf: faces one too far", 35, |t, s| {
        let count = t.facelist.len() as u16;
        pick(&mut t.leaves, s).facelist = count
    }),
    ("model: faces one too far", 35, |t, s| {
        let count = t.faces.len() as i32;
        pick(&mut t.models, s).face = count
    }),
    ("model: last leaf at the count", 35, |t, s| pick(&mut t.models, s).leaves += 1),
    ("leaf: row one past the data", 35, |t, s| {
        let size = t.visibility.len() as i32;
        pick(&mut t.leaves[1..], s).visibility = size + 1
    }),
    ("leaf: row at the data's end", 35, |t, s| {
        let size = t.visibility.len() as i32;
        pick(&mut t.leaves[1..], s).visibility = size
    }),
    ("hull 0: root at the count", 30, |t, s| {
        let count = t.render_nodes.len() as i32;
        pick(&mut t.models, s).roots[0] = count
    }),
    ("hull 1: root at the count", 30, |t, s| {
        let count = t.clip_nodes.len() as i32;
        pick(&mut t.models, s).roots[1] = count
    }),
    ("hull 2: root at the count", 30, |t, s| {
        let count = t.clip_nodes.len() as i32;
        pick(&mut t.models, s).roots[2] = count
    }),
    ("clip node: its own child", 34, |t, _| t.clip_nodes[1].children[0] = 1),
    ("render node: its own child", 34, |t, _| t.render_nodes[1].children[0] = 1),
    ("render node 0 above every root", 34, |t, _| {
        t.models[0].roots[0] = 1;
        t.render_nodes[0].children = [0, 1]
    }),
    ("node: plane at the count", 30, |t, s| {
        let count = t.planes.len() as i32;
        match s.once_in(2) {
            true => t.clip_nodes[1].plane = count,
            false => t.render_nodes[1].plane = count,
        }
    }),
    ("render node: leaf at the count", 30, |t, _| {
        t.render_nodes[1].children = [-1 - t.leaves.len() as i16; 2]
    }),
    ("a chain of 513 clip nodes", 32, |t, _| {
        let first = t.clip_nodes.len() as i16;
        t.clip_nodes.extend((0..513).map(|at| {
            let next = if at < 512 { first + at + 1 } else { -1 };
            ClipNode { plane: 0, children: [next, -2] }
        }));
        t.models[1].roots[1] = first as i32
    }),
];

fn pick<'a, T>(records: &'a mut [T], seed: &mut Seed) -> &'a mut T {
    let at = seed.below(records.len() as u64) as usize;
    &mut records[at]
}

/// A good map, the same with each fault, and with two of them: the one of the earlier check is met.
fn planted(board: &mut Board, calls: &Calls, seed: &mut Seed, case: u64) {
    let tables = good(seed);
    let made = Made::new(tables.clone(), &Layout::plain());
    let number = one(board, calls, seed, (&made.file, &made.map), &|| format!("case {case}"));
    expected(board, "a map without a fault", number, 0);
    for (at, (name, number, plant)) in FAULTS.iter().enumerate() {
        let mut spoilt = tables.clone();
        plant(&mut spoilt, seed);
        let name_of = || format!("case {case}, {name}");
        let made = Made::new(spoilt.clone(), &Layout::plain());
        let given = one(board, calls, seed, (&made.file, &made.map), &name_of);
        expected(board, &format!("planted, {name}"), given, *number);
        // of two, the number is that of the earlier check wherever the numbers tell them apart
        let (other, later, plant) = FAULTS[seed.below(FAULTS.len() as u64) as usize];
        if *number == 35 && later != 35 && at < 12 {
            plant(&mut spoilt, seed);
            let name_of = || format!("case {case}, {name}, then {other}");
            let made = Made::new(spoilt, &Layout::plain());
            let given = one(board, calls, seed, (&made.file, &made.map), &name_of);
            expected(board, "planted, a reference and a tree", given, 35);
        }
    }
}

/// What the program on paper says of a planted fault, and what the note says.
fn expected(board: &mut Board, name: &str, given: u32, number: u32) {
    let difference = (given != number).then(|| format!("answers {given}, the note says {number}"));
    board.count(name, (given, Side::Paper), difference, || (0, String::new()));
}

/// A map that loads, with bytes changed or cut.
fn damaged(board: &mut Board, calls: &Calls, seed: &mut Seed, case: u64) {
    let tables = if seed.once_in(2) { good(seed) } else { any(seed).0 };
    let mut made = Made::new(tables, &Layout::plain());
    for _ in 0..seed.below(4) {
        let at = 124 + seed.below(made.file.len() as u64 - 124) as usize;
        made.file[at] = match seed.below(3) {
            0 => seed.next() as u8,
            1 => made.file[at].wrapping_add(1),
            _ => 0xff,
        };
    }
    if seed.once_in(4) {
        made.file.truncate(seed.below(made.file.len() as u64 + 1) as usize);
    }
    one(board, calls, seed, (&made.file, &made.map), &|| format!("case {case}"));
}

fn any(seed: &mut Seed) -> (Tables, Layout) {
    let what = maps::Plan::any(seed, 10);
    make(seed, &what)
}

/// A map record made by hand over any bytes, and each list in turn too short.
fn by_hand(board: &mut Board, calls: &Calls, seed: &mut Seed, case: u64) {
    let (file, mut map) = hand_made::bytes(seed);
    for _ in 0..seed.below(4) {
        hand_made::spoil(seed, &mut map, file.len() as u64);
    }
    // a count of nodes that no marks are lent for
    let nodes = |map: &[u32; MAP_WORDS]| (map[11] / 24).max(map[19] / 8);
    if nodes(&map) > 100_000 {
        (map[11], map[19]) = (map[11] % 100_000, map[19] % 100_000);
    }
    one(board, calls, seed, (&file, &map), &|| format!("case {case}"));
    let few = seed.below(MAP_WORDS as u64) as usize;
    let mut marks = [0xa5; 3];
    let refusal = (calls.accept)(&file, &map[..few], &mut marks);
    let equal = refusal == 22 && marks == [0xa5; 3];
    let difference = (!equal).then(|| format!("answers {refusal}, marks {}", shown(&marks)));
    board.count("bsp_accept", (refusal, Side::Paper), difference, || {
        (few, format!("case {case}, {few} words of a map"))
    });
}

/// The call beside the program on paper, and beside the Rust where it passed; what the program says,
/// with marks enough.
pub fn one(
    board: &mut Board,
    calls: &Calls,
    seed: &mut Seed,
    (file, map): (&[u8], &[u32; MAP_WORDS]),
    name: &dyn Fn() -> String,
) -> u32 {
    let asked = Asked { calls, name, file, map };
    let page = asked.paper();
    let nodes = page.count(paper::RENDER_NODES).max(page.count(paper::CLIP_NODES)) as usize;
    let len = match seed.below(12) {
        0 => nodes.saturating_sub(1),
        1..=3 => nodes,
        _ => nodes + seed.below(5) as usize,
    };
    let lent = vec![[0, 1, 0xff][seed.below(3) as usize]; len];
    let mut wanted = lent.clone();
    let expected = accept::accept(&page, &mut wanted).err().unwrap_or(0);
    let mut marks = lent;
    let refusal = (calls.accept)(file, map, &mut marks);
    let equal = refusal == expected && marks == wanted;
    let difference =
        (!equal).then(|| format!("answers {refusal} marks {}, expected {expected}", shown(&marks)));
    board.count("bsp_accept", (refusal, Side::Paper), difference, || {
        asked.input(format!("{len} marks"))
    });
    if expected == 0 {
        // a map record made by hand is another map than the Rust's
        let rust = richter::load(file).ok().filter(|_| map_of_header(file) == *map);
        if let Some(rust) = rust {
            answered(board, &asked, seed, &rust);
        }
    }
    match expected {
        // the fault lies behind the marks
        22 => accept::accept(&page, &mut vec![0; nodes]).err().unwrap_or(0),
        _ => expected,
    }
}

/// On a map that passed: the Rust's walks and traces from the roots of hulls 0 to 2 of every model,
/// its leaf lookup from node 0, and the row of every leaf are answered, none refused with 30 to 34.
fn answered(board: &mut Board, asked: &Asked, seed: &mut Seed, rust: &richter::Map) {
    let planes: Vec<_> = rust
        .planes()
        .iter()
        .map(|p| maps::record::Plane { normal: p.normal, dist: p.dist, kind: p.kind as i32 })
        .collect();
    let mut note = |name: &str, refusal: Option<richter::Refusal>, text: &dyn Fn() -> String| {
        let difference = refusal.map(|number| format!("the Rust refuses: {number}"));
        board.count(name, (0, Side::Rust), difference, || asked.input(text()));
    };
    for model in 0..rust.models().len() {
        for index in 0..3 {
            let text = || format!("hull {index} of model {model}");
            match rust.hull(model, index) {
                Ok(hull) => hull_answered(&mut note, seed, &planes, &hull, &text),
                Err(refusal) => note("Rust, hulls of what passed", Some(refusal), &text),
            }
        }
    }
    for _ in 0..ASKED {
        let p = tables::point(seed, &planes);
        let value = rust.find_leaf(p).value;
        let text = || format!("point {}", walks::bits_of(&p));
        note("Rust, leaf lookups of what passed", value.err(), &text);
    }
    let leaves = rust.leaves().len();
    for leaf in 0..leaves {
        let count = if seed.once_in(2) { leaves } else { seed.below(leaves as u64 + 1) as usize };
        let row = rust.get_pvs(leaf, count);
        let text = || format!("leaf {leaf}, leaf count {count}");
        note("Rust, rows of what passed", row.err(), &text);
    }
}

/// Walks and traces of one hull.
fn hull_answered(
    note: &mut impl FnMut(&str, Option<richter::Refusal>, &dyn Fn() -> String),
    seed: &mut Seed,
    planes: &[maps::record::Plane],
    hull: &richter::Hull,
    name: &dyn Fn() -> String,
) {
    for _ in 0..ASKED {
        let (p, s) = (tables::point(seed, planes), tables::segment(seed, planes));
        let text = || format!("{}, point {}", name(), walks::bits_of(&p));
        note("Rust, contents of what passed", hull.contents_at_point(p).value.err(), &text);
        let text = || format!("{}, segment {}", name(), walks::bits_of(&s));
        let value = hull.trace([s[0], s[1], s[2]], [s[3], s[4], s[5]]).value;
        note("Rust, traces of what passed", value.err(), &text);
    }
}

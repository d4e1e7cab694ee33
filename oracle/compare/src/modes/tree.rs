//! The tree check beside document 01 read as a program, with the marks before and after, on every
//! small table and on generated ones with every failure in every place.
//!
//! The program on paper is checked too: it must pass exactly if the root's tree, gathered without
//! regard to any order, breaks no rule; and from a root that passed, the Rust's walks and traces
//! must be answered and stay in that tree.

use std::collections::BTreeSet;

use maps::record::{ClipNode, RenderNode, Tables};
use maps::{Layout, Seed};

use crate::calls::asked::Asked;
use crate::calls::Calls;
use crate::cases::tables::{self, Made};
use crate::modes::sizes;
use crate::modes::walks::lent_hull;
use crate::paper::records::Child;
use crate::paper::{self, tree, Answer};
use crate::report::board::{file_shown, shown, Board, Plan, Side};

pub fn run(plan: &Plan) -> bool {
    compare(&Calls::linked(), plan).print()
}

pub fn compare(calls: &Calls, plan: &Plan) -> Board {
    let mut board = Board::new();
    if plan.from == 0 {
        every_small(&mut board, calls, plan.quick);
        by_depth(&mut board, calls);
    }
    for (case, mut seed) in plan.seeds("tree-check") {
        seeded(&mut board, calls, &mut seed, case);
    }
    board
}

/// A node before it is written as a render or a clip node.
#[derive(Copy, Clone)]
struct Node {
    plane: i32,
    children: [i16; 2],
    /// A field of the record that is refused with 10.
    bad: bool,
}

/// The table of a file and how it is asked.
struct Table<'a> {
    file: &'a [u8],
    map: &'a [u32],
    table: u32,
    root: u64,
}

/// A file with these nodes in table 0 or 1, so many planes and leaves.
fn file_of(nodes: &[Node], table: u32, planes: usize, leaves: usize) -> Made {
    let mut tables = Tables::smallest();
    let plane = maps::record::Plane { normal: [0.0; 3], dist: 0.0, kind: 0 };
    tables.planes = vec![plane; planes];
    let leaf = maps::record::Leaf {
        contents: -1,
        visibility: -1,
        min: [0; 3],
        max: [0; 3],
        facelist: 0,
        faces: 0,
        sounds: [0; 4],
    };
    tables.leaves = vec![leaf; leaves];
    for node in nodes {
        let (plane, children) = (node.plane, node.children);
        if table == 0 {
            let face = if node.bad { -1 } else { 0 };
            let (min, max) = ([0; 3], [0; 3]);
            tables.render_nodes.push(RenderNode { plane, children, min, max, face, faces: 0 });
        } else {
            let plane = if node.bad { i32::MIN } else { plane };
            tables.clip_nodes.push(ClipNode { plane, children });
        }
    }
    Made::new(tables, &Layout::plain())
}

/// One call with these marks, beside the program on paper.
fn one(board: &mut Board, calls: &Calls, asked: &Table, marks: &[u8], case: impl Fn() -> String) {
    let Table { file, map, table, root } = *asked;
    let on_paper = paper::Map::new(file, map).expect("enough words");
    let mut wanted = marks.to_vec();
    let expected = tree::check(&on_paper, table, root, &mut wanted);
    let mut left = marks.to_vec();
    let mut out = [7; 2];
    let refusal = (calls.tree_check)(file, map, table, root, &mut left, &mut out);
    let words = [*expected.as_ref().unwrap_or(&7), 7];
    let equal = refusal == *expected.as_ref().err().unwrap_or(&0) && out == words && left == wanted;
    let difference = (!equal).then(|| {
        format!(
            "answers {refusal} {out:?} marks {}, expected {expected:?} marks {}",
            shown(&left),
            shown(&wanted)
        )
    });
    let input = || {
        let text = format!("{}, table {table}, root {root}, marks {}", case(), shown(&marks));
        (file.len(), format!("{text}, {}", file_shown(file)))
    };
    board.count("bsp_tree_check", (refusal, Side::Paper), difference, input);
    if table < 2 && expected != Err(22) {
        condition(board, &on_paper, asked, &expected, input);
    }
    let seed = &mut Seed::named(root ^ marks.len() as u64, "hull of a table");
    let hull = crate::modes::walks::hull_words(seed, table as u64, root);
    let asked = Asked { calls, name: &case, file, map };
    sizes::ask(board, &asked, lent_hull(seed, &hull), None, marks);
}

/// The check on paper passes exactly if the gathered tree breaks no rule, with its height.
fn condition(
    board: &mut Board,
    map: &paper::Map,
    asked: &Table,
    found: &Answer<u64>,
    input: impl Fn() -> (usize, String),
) {
    let gathered = gathered(map, asked.table, asked.root).map(|(_, height)| height);
    let difference = match gathered == found.ok() {
        true => None,
        false => Some(format!("the check says {found:?}, the gathered tree {gathered:?}")),
    };
    board.count_paper("tree condition", difference, input);
}

/// The root's tree and its height, if no rule is broken anywhere in it; in no particular order.
fn gathered(map: &paper::Map, table: u32, root: u64) -> Option<(BTreeSet<u64>, u64)> {
    let mut tree = BTreeSet::new();
    let mut open = vec![(root, 1)];
    let mut height = 0;
    while let Some((node, depth)) = open.pop() {
        let (plane, children) = match table {
            0 => map.render_node(node).ok().map(|n| (n.plane, n.children))?,
            _ => map.clip_node(node).ok().map(|n| (n.plane, n.children))?,
        };
        if plane >= map.count(paper::PLANES) || depth > 512 || !tree.insert(node) {
            return None;
        }
        height = height.max(depth);
        for child in children.iter().rev() {
            match child {
                Child::Node(next) => open.push((*next, depth + 1)),
                Child::Leaf(leaf) if *leaf >= map.count(paper::LEAVES) => return None,
                _ => {}
            }
        }
    }
    Some((tree, height))
}

/// Every table of two nodes over a few children and planes, from every root; of three nodes over
/// fewer unless `quick`.
fn every_small(board: &mut Board, calls: &Calls, quick: bool) {
    let two: Vec<Node> = each(&[-1, -2, -7, 0, 1, 2], &[0, 1, -1]);
    for first in &two {
        for second in &two {
            small(board, calls, &[*first, *second]);
        }
    }
    let three: Vec<Node> = each(&[-1, 0, 1, 2, 3], &[0]);
    let last: Vec<Node> = each(&[-2, -3, 0, 1, 3], &[0]);
    if quick {
        return;
    }
    for first in &three {
        for second in &three {
            for third in &last {
                small(board, calls, &[*first, *second, *third]);
            }
        }
    }
}

fn each(children: &[i16], planes: &[i32]) -> Vec<Node> {
    let mut out = Vec::new();
    for front in children {
        for back in children {
            for plane in planes {
                out.push(Node { plane: *plane, children: [*front, *back], bad: false });
            }
        }
    }
    out
}

/// As both tables, with one plane and two leaves, from every root in and next to the table.
fn small(board: &mut Board, calls: &Calls, nodes: &[Node]) {
    for table in 0..2 {
        let made = file_of(nodes, table, 1, 2);
        for root in 0..=nodes.len() as u64 {
            let asked = Table { file: &made.file, map: &made.map, table, root };
            let marks = [0xa5; 4];
            one(board, calls, &asked, &marks, || "every small table".to_string());
        }
    }
}

/// Chains around 512 nodes, down either side, with and without a node that is reached again.
fn by_depth(board: &mut Board, calls: &Calls) {
    for count in [1i16, 2, 510, 511, 512, 513, 514, 600] {
        for side in 0..2 {
            for again in [None, Some(0), Some(count - 1), Some(count / 2), Some(count)] {
                for table in 0..2 {
                    chain(board, calls, (count, side, again, table));
                }
            }
        }
    }
}

fn chain(
    board: &mut Board,
    calls: &Calls,
    (count, side, again, table): (i16, usize, Option<i16>, u32),
) {
    let mut nodes: Vec<Node> = (0..count)
        .map(|at| {
            let mut children = [-1; 2];
            if at + 1 < count {
                children[side] = at + 1;
            }
            Node { plane: 0, children, bad: false }
        })
        .collect();
    if let Some(again) = again {
        nodes[count as usize - 1].children[1 - side] = again;
    }
    let made = file_of(&nodes, table, 1, 1);
    for root in [0, 1, count as u64 - 1] {
        let asked = Table { file: &made.file, map: &made.map, table, root };
        let marks = vec![0; count as usize + 3];
        one(board, calls, &asked, &marks, || {
            format!("chain of {count} on side {side}, again {again:?}")
        });
    }
}

/// A tree of `count` nodes, numbered in any order, and its root.
fn tree(seed: &mut Seed, count: usize) -> (Vec<Node>, u64) {
    let deep = seed.below(3);
    let mut number: Vec<i16> = (0..count as i16).collect();
    if seed.once_in(2) {
        for at in (1..count).rev() {
            number.swap(at, seed.below(at as u64 + 1) as usize);
        }
    }
    let mut nodes = vec![Node { plane: 0, children: [-1; 2], bad: false }; count];
    let mut open = vec![(0, 0), (0, 1)];
    for at in 1..count {
        let pick = match deep {
            0 => seed.below(open.len() as u64) as usize,
            1 => open.len() - 1,
            _ => open.len() - 1 - seed.below(2) as usize,
        };
        let (parent, side) = open.swap_remove(pick);
        nodes[number[parent] as usize].children[side] = number[at];
        let first = seed.below(2) as usize;
        open.extend([(at, first), (at, 1 - first)]);
    }
    (nodes, number[0] as u64)
}

/// One failure in one node.
fn plant(seed: &mut Seed, nodes: &mut [Node], (planes, leaves): (usize, usize), root: u64) {
    let count = nodes.len() as u64;
    let side = seed.below(2) as usize;
    let any = seed.below(count) as i16;
    let at = seed.below(count) as usize;
    let node = &mut nodes[at];
    match seed.below(12) {
        0 => node.children[side] = (count + seed.below(2)) as i16,
        1 => node.children[side] = i16::MAX,
        2 => node.plane = (planes as u64 + seed.below(2)) as i32,
        3 => node.plane = i32::MAX,
        4 => node.plane = -1,
        5 => node.children = [node.children[side]; 2],
        6 => node.children = [any; 2],
        7 => node.children[side] = root as i16,
        8 => node.children[side] = any,
        9 => node.children[side] = at as i16,
        10 => node.children[side] = -1 - leaves as i16 - seed.below(2) as i16,
        _ => node.bad = true,
    }
}

fn seeded(board: &mut Board, calls: &Calls, seed: &mut Seed, case: u64) {
    let count = match seed.below(12) {
        0 => 0,
        1 => 500 + seed.below(40) as usize,
        2 if seed.once_in(10) => 2000,
        _ => 1 + seed.below(12) as usize,
    };
    let (mut nodes, root) = if count == 0 { (Vec::new(), 0) } else { tree(seed, count) };
    // with several planes, so that a plane number just outside is met
    let (planes, leaves) = (1 + seed.below(3) as usize, 1 + seed.below(3) as usize);
    for node in nodes.iter_mut() {
        node.plane = seed.below(planes as u64) as i32;
    }
    if count > 0 {
        for _ in 0..seed.below(4) {
            plant(seed, &mut nodes, (planes, leaves), root);
        }
    }
    let table = seed.below(2) as u32;
    let mut made = file_of(&nodes, table, planes, leaves);
    if seed.once_in(6) {
        by_hand(seed, &mut made, table);
    }
    for _ in 0..3 {
        let root = if seed.once_in(3) { tables::root(seed, count as u64) } else { root };
        let table = if seed.once_in(12) { seed.below(5) as u32 } else { table };
        let asked = Table { file: &made.file, map: &made.map, table, root };
        let marks = marks(seed, count);
        one(board, calls, &asked, &marks, || format!("case {case}"));
        if let Ok(rust) = richter::load(&made.file) {
            demand_3(board, seed, &asked, &rust, || format!("case {case}"));
        }
    }
    short_lists(board, calls, seed, &made);
    let marks = marks(seed, 5);
    sizes::short_lists(board, calls, seed, (&made.file, &made.map), &marks);
}

/// Marks of about the table's size, clean or not.
pub fn marks(seed: &mut Seed, count: usize) -> Vec<u8> {
    let len = match seed.below(8) {
        0 => count.saturating_sub(1),
        1 => seed.below(count as u64 + 1) as usize,
        2 | 3 => count,
        _ => count + 1 + seed.below(9) as usize,
    };
    let kind = seed.below(4);
    (0..len)
        .map(|_| match kind {
            0 => 0,
            1 => 1,
            2 => 0xff,
            _ => seed.next() as u8,
        })
        .collect()
}

/// A map record that no loading gave: nodes outside the bytes, other counts, a part of a record.
fn by_hand(seed: &mut Seed, made: &mut Made, table: u32) {
    let section = [5, 9][table as usize % 2];
    let other = [1, 10, section][seed.below(3) as usize];
    match seed.below(4) {
        0 => made.map[2 * section] = made.file.len() as u32 - seed.below(40) as u32,
        1 => made.map[2 * other + 1] += seed.below(30) as u32,
        2 => made.map[2 * other + 1] = made.map[2 * other + 1].saturating_sub(1),
        _ => made.map[2 * other] = seed.below(made.file.len() as u64 + 9) as u32,
    }
}

/// From a root that passed, the Rust's walks and traces are answered, enter nodes of the root's
/// tree alone and none twice, and walks are no longer than the height.
fn demand_3(
    board: &mut Board,
    seed: &mut Seed,
    asked: &Table,
    rust: &richter::Map,
    case: impl Fn() -> String,
) {
    let map = paper::Map::new(asked.file, asked.map).expect("enough words");
    let Some((tree, height)) = gathered(&map, asked.table, asked.root) else { return };
    if asked.table > 1 || crate::modes::records::map_of_header(asked.file)[..] != asked.map[..] {
        return;
    }
    let hull = rust.table(asked.table as usize).with_root(asked.root as usize);
    let p = tables::point(seed, &[]);
    let s = tables::segment(seed, &[]);
    let walked = hull.contents_at_point(p);
    let traced = hull.trace(crate::modes::walks::three(&s), crate::modes::walks::three(&s[3..]));
    let inside = |nodes: &[usize]| {
        let set: BTreeSet<u64> = nodes.iter().map(|n| *n as u64).collect();
        set.len() == nodes.len() && set.is_subset(&tree)
    };
    let holds = walked.value.is_ok()
        && traced.value.is_ok()
        && inside(&walked.nodes)
        && inside(&traced.nodes)
        && walked.nodes.len() as u64 <= height;
    let difference = (!holds).then(|| format!("{walked:?} {traced:?}"));
    board.count("Rust, from a root that passed", (0, Side::Rust), difference, || {
        (asked.file.len(), format!("{}, root {}", case(), asked.root))
    });
}

/// Both tables of a map that the Rust loaded: from its models' roots and from others.
pub fn of_loaded(board: &mut Board, asked: &Asked, seed: &mut Seed, rust: &richter::Map) {
    let models = asked.paper().count(paper::MODELS);
    let model = seed.below(models.max(1));
    for table in 0..2 {
        let count = asked.paper().count([paper::RENDER_NODES, paper::CLIP_NODES][table as usize]);
        let hull = rust.hull(model as usize, table as usize).expect("a hull");
        for root in [0, hull.root() as u64, tables::root(seed, count)] {
            of_root(board, asked, seed, rust, (table, root));
        }
    }
}

/// One root of a table of a map that the Rust loaded.
pub fn of_root(
    board: &mut Board,
    asked: &Asked,
    seed: &mut Seed,
    rust: &richter::Map,
    (table, root): (u32, u64),
) {
    let Asked { calls, name, file, map } = *asked;
    let count = asked.paper().count([paper::RENDER_NODES, paper::CLIP_NODES][table as usize]);
    let table = Table { file, map, table, root };
    one(board, calls, &table, &marks(seed, count as usize), name);
    demand_3(board, seed, &table, rust, name);
}

/// A map record or a list of words that is too short is 22 before a table that is none.
fn short_lists(board: &mut Board, calls: &Calls, seed: &mut Seed, made: &Made) {
    let few = seed.below(31) as usize;
    let table = seed.below(4) as u32;
    let marks = marks(seed, 5);
    for (words, lent) in [(few, 1), (31, 0)] {
        let (mut left, mut out) = (marks.clone(), vec![7; lent]);
        let map = &made.map[..words];
        let refusal = (calls.tree_check)(&made.file, map, table, 0, &mut left, &mut out);
        let equal = refusal == 22 && left == marks && out.iter().all(|word| *word == 7);
        let difference = (!equal).then(|| format!("answers {refusal}, expected 22"));
        board.count("bsp_tree_check", (refusal, Side::Paper), difference, || {
            (words, format!("{words} words of a map, {lent} of the answer, table {table}"))
        });
    }
}

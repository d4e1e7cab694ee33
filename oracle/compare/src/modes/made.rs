//! Made-up maps (document 02, note 14) beside the program on paper, byte for byte: every node count
//! from 1 to 500 and other counts, any seeds, buffers too short; and what the published Rust makes of
//! each file: it loads, its planes, nodes, leaves and model are those that the numbers say, its walks
//! follow the chain, and every record and query of the calls is the Rust's. Each file is accepted.

use maps::Seed;
use richter::hull::Child;
use richter::map::RenderChild;

use crate::calls::words;
use crate::calls::Calls;
use crate::modes::records::map_of_header;
use crate::modes::walks::lent_list;
use crate::modes::{accept, loads};
use crate::paper::made;
use crate::report::board::{shown, Board, Plan, Side};

const CALL: &str = "bsp_made_up";

/// Points asked of the chain of each file.
const ASKED: usize = 8;

pub fn run(plan: &Plan) -> bool {
    compare(&Calls::linked(), plan).print()
}

/// Each node count in turn, with a seed of its own.
pub fn compare(calls: &Calls, plan: &Plan) -> Board {
    let mut board = Board::new();
    richter::probe::set_patience(crate::modes::walks::PATIENCE);
    for (case, mut seed) in plan.seeds("made") {
        let start = match seed.below(40) {
            0 => [0, 1, u32::MAX, 1 << 31, (1 << 31) - 1][seed.below(5) as usize],
            _ => seed.next() as u32,
        };
        let count = 1 + case % 500;
        let name = || format!("case {case}, seed {start}, {count} nodes");
        let file = made::made_up(start, count).expect("a node count from 1 to 500");
        let lent = (lent_list(&mut seed, file.len()), 1 + seed.below(2) as usize);
        one(&mut board, calls, (start, count), lent);
        one(&mut board, calls, (start, count), (file.len() + seed.below(64) as usize, 1));
        refused(&mut board, calls, &mut seed, start);
        as_said(&mut board, &mut seed, (start, count), &file);
        loads::one(&mut board, calls, &seed, name, &file);
        let map = map_of_header(&file);
        let said = accept::one(&mut board, calls, &mut seed, (&file, &map), &name);
        let difference = (said != 0).then(|| format!("acceptance says {said}"));
        board.count("accepted, on paper", (said, Side::Paper), difference, || (file.len(), name()));
    }
    richter::probe::set_patience(usize::MAX);
    board
}

/// The call with so many bytes and words lent.
fn one(
    board: &mut Board,
    calls: &Calls,
    (seed, count): (u32, u64),
    (bytes, words): (usize, usize),
) {
    let expected =
        made::made_up(seed, count).and_then(|file| match words == 0 || file.len() > bytes {
            true => Err(22),
            false => Ok(file),
        });
    let (mut buffer, mut out) = (vec![0xa5; bytes], vec![7; words]);
    let refusal = (calls.made_up)(seed, count, &mut buffer, &mut out);
    let (mut wanted, mut wanted_out) = (vec![0xa5; bytes], vec![7; words]);
    if let Ok(file) = &expected {
        wanted[..file.len()].copy_from_slice(file);
        wanted_out[0] = file.len() as u64;
    }
    let number = *expected.as_ref().err().unwrap_or(&0);
    let equal = refusal == number && buffer == wanted && out == wanted_out;
    let difference = (!equal).then(|| {
        let first = buffer.iter().zip(&wanted).position(|(a, b)| a != b);
        format!("answers {refusal} {out:?}, expected {number} {wanted_out:?}, first byte {first:?}")
    });
    board.count(CALL, (refusal, Side::Paper), difference, || {
        (bytes, format!("seed {seed}, {count} nodes, {bytes} bytes, {words} words"))
    });
}

/// Node counts outside, with lists enough and with none; one too short for a count that is inside.
fn refused(board: &mut Board, calls: &Calls, seed: &mut Seed, start: u32) {
    let inside = 1 + seed.below(500);
    let outside = match seed.below(6) {
        0 => 0,
        1 => 501,
        2 => 502 + seed.below(70_000),
        3 => (1 << 32) + inside,
        4 => u64::MAX - seed.below(3),
        _ => seed.next() | 1 << 40,
    };
    let bytes = [0, 300, 27_000][seed.below(3) as usize];
    one(board, calls, (start, outside), (bytes, seed.below(2) as usize));
    let short = seed.below(249 + 52 * inside) as usize;
    one(board, calls, (start, inside), (short, 1));
    one(board, calls, (start, inside), (27_000, 0));
}

/// What the published Rust makes of a file: the records that the numbers say, and walks down the chain.
fn as_said(board: &mut Board, seed: &mut Seed, (start, count): (u32, u64), file: &[u8]) {
    let said = match richter::load(file) {
        Ok(map) => {
            records_differ(&map, start, count).or_else(|| walks_differ(&map, seed, start, count))
        }
        Err(refusal) => Some(format!("the Rust refuses the file: {refusal}")),
    };
    board.count("Rust, as the numbers say", (0, Side::Rust), said, || {
        (file.len(), format!("seed {start}, {count} nodes"))
    });
}

/// The first thing in which the Rust's tables are not what the numbers say.
fn records_differ(map: &richter::Map, start: u32, count: u64) -> Option<String> {
    nodes_differ(map, made::numbers(start, count)).or_else(|| rest_differs(map, count as usize))
}

/// The same of planes and nodes.
fn nodes_differ(map: &richter::Map, numbers: Vec<u32>) -> Option<String> {
    let count = numbers.len();
    let (planes, render, clip) = (map.planes(), map.render_nodes(), map.clip_nodes());
    if [planes.len(), render.len(), clip.len()] != [count; 3] {
        return Some("a count".to_string());
    }
    for (at, number) in numbers.into_iter().enumerate() {
        let solid = made::is_solid(number);
        let next = (at + 1 < count).then_some(at + 1);
        if planes[at] != richter::Plane::axis(made::axis(number), made::distance(number)) {
            return Some(format!("plane {at}"));
        }
        let front = RenderChild::Leaf(if solid { 0 } else { 1 });
        let back = next.map_or(RenderChild::Leaf(1), RenderChild::Node);
        let node = &render[at];
        let rest = (node.min, node.max, node.face_id, node.face_count);
        if node.plane != at || node.children != [front, back] || rest != ([0; 3], [0; 3], 0, 0) {
            return Some(format!("render node {at}"));
        }
        let front = Child::Contents(if solid { 2 } else { 1 });
        let back = next.map_or(Child::Contents(1), Child::Node);
        if clip[at].plane != at || clip[at].children != [front, back] {
            return Some(format!("clip node {at}"));
        }
    }
    None
}

/// The same of leaves, the model and the other sections.
fn rest_differs(map: &richter::Map, count: usize) -> Option<String> {
    let leaves = map.leaves();
    let bare = |leaf: &richter::map::Leaf| {
        leaf.vis_offset.is_none() && leaf.facelist_id == 0 && leaf.facelist_count == 0
    };
    if leaves.len() != 2
        || [leaves[0].contents, leaves[1].contents] != [2, 1]
        || !leaves.iter().all(bare)
    {
        return Some("a leaf".to_string());
    }
    let models = map.models();
    let [model] = models.as_slice() else { return Some("the models".to_string()) };
    let rest = (model.leaf_id, model.leaf_count, model.face_id, model.face_count);
    if model.roots != [0; 3] || model.node_counts != [count; 3] || rest != (0, 1, 0, 0) {
        return Some("the model".to_string());
    }
    let empty = map.faces().is_empty() && map.texinfos().is_empty() && map.edges().is_empty();
    (!empty || !map.vertices().is_empty() || map.entities() != [0])
        .then(|| "the other sections".to_string())
}

/// The first point whose walk in the Rust does not follow the chain.
fn walks_differ(map: &richter::Map, seed: &mut Seed, start: u32, count: u64) -> Option<String> {
    let numbers = made::numbers(start, count);
    for _ in 0..ASKED {
        let point = [0; 3].map(|_| seed.below(65_536) as f32 / 200.0 - 160.0);
        let in_front =
            |number: &u32| point[made::axis(*number) as usize] >= made::distance(*number);
        let met = numbers.iter().position(in_front);
        let code = if met.is_some_and(|at| made::is_solid(numbers[at])) { 2 } else { 1 };
        let visits = met.map_or(count as usize, |at| at + 1);
        for index in 0..3 {
            let walked = map.hull(0, index).expect("a hull").contents_at_point(point);
            if walked.value != Ok(code) || walked.nodes.len() != visits {
                return Some(format!("contents at {point:?} in hull {index}: {:?}", walked.value));
            }
        }
        let found = words::walk(map.find_leaf(point), |leaf, visits| vec![leaf as u64, visits]);
        let leaf = vec![2 - code as u64, visits as u64];
        if found.as_ref().map(|found| &found.0) != Some(&Ok(leaf)) {
            return Some(format!("the leaf at {point:?}: {}", shown(&found)));
        }
    }
    None
}

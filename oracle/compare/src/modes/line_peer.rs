//! Whole-line traces beside id Software's own hull check, built from Debian's source package of
//! quakespasm with single-precision constants and dot products: on generated trees, from roots that
//! passed the tree check, with finite segments; and the time of both.
//!
//! The peer goes over nodes and planes as loading reads them, with each leaf's contents in the place of
//! its number. Where a plane is turned it has the distance negated, and so -0 for 0, where note 6 says
//! 0 less it: these are counted in a line of their own.

use std::hint::black_box;
use std::time::Instant;

use maps::world::{self, World};
use maps::{floats, shape, Seed, Shape};

use crate::calls::asked::Asked;
use crate::calls::{self, Calls, LINE_WORDS, TRACE_WORDS};
use crate::cases::tables::{self, Made};
use crate::modes::walks::{bits_of, hull_words};
use crate::paper::records::Child;
use crate::paper::{self, tree};
use crate::report::board::{Board, Plan, Side};

#[repr(C)]
pub struct PeerPlane {
    pub normal: [f32; 3],
    pub dist: f32,
    pub kind: i32,
}

#[repr(C)]
pub struct PeerNode {
    plane: i32,
    children: [i32; 2],
}

extern "C" {
    fn peer_line(
        planes: *const PeerPlane,
        nodes: *const PeerNode,
        count: i32,
        segment: *const f32,
        out: *mut f32,
        flags: *mut i32,
    );
}

/// The tables as the peer takes them.
pub struct Peer {
    pub planes: Vec<PeerPlane>,
    pub nodes: Vec<PeerNode>,
}

impl Peer {
    /// Of the render nodes (0) or the clip nodes (1) of a map that loads.
    pub fn of(page: &paper::Map, table: u64) -> Peer {
        let planes = (0..page.count(paper::PLANES)).map(|at| page.plane(at).expect("a plane"));
        let planes = planes
            .map(|p| PeerPlane { normal: p.normal(), dist: p.dist, kind: p.kind() as i32 })
            .collect();
        let child = |child: Child| match child {
            Child::Node(at) => at as i32,
            Child::Contents(code) => -(code as i32),
            Child::Leaf(at) => -(page.leaf(at).expect("a leaf").contents as i32),
        };
        let node = |at: u64| match table {
            0 => page.render_node(at).map(|n| (n.plane, n.children)),
            _ => page.clip_node(at).map(|n| (n.plane, n.children)),
        };
        let section = [paper::RENDER_NODES, paper::CLIP_NODES][table as usize];
        let nodes = (0..page.count(section)).map(|at| node(at).expect("a node"));
        let nodes = nodes
            .map(|(plane, children)| PeerNode {
                plane: plane as i32,
                children: children.map(child),
            })
            .collect();
        Peer { planes, nodes }
    }

    /// The least number of a node in a root's tree, of a root that passed the tree check.
    pub fn least_of(&self, root: i32) -> i32 {
        let mut least = root;
        let mut open = vec![root];
        while let Some(node) = open.pop() {
            least = least.min(node);
            let children = self.nodes[node as usize].children;
            open.extend(children.into_iter().filter(|child| *child >= 0));
        }
        least
    }

    /// Its answer: eight floats and four flags.
    fn raw(&self, segment: &[f32; 6]) -> ([f32; 8], [i32; 4]) {
        let (mut floats, mut flags) = ([0.0; 8], [0; 4]);
        // SAFETY: the tree check passed, so that every child and plane is in its table
        unsafe {
            peer_line(
                self.planes.as_ptr(),
                self.nodes.as_ptr(),
                self.nodes.len() as i32,
                segment.as_ptr(),
                floats.as_mut_ptr(),
                flags.as_mut_ptr(),
            )
        };
        (floats, flags)
    }

    /// The words of its answer.
    fn line(&self, segment: &[f32; 6]) -> [u64; LINE_WORDS] {
        let (floats, flags) = self.raw(segment);
        let words = floats.map(paper::fields::float_word).into_iter();
        let mut words = words.chain(flags.map(|flag| flag as u64));
        [0; LINE_WORDS].map(|_| words.next().expect("twelve words"))
    }
}

pub fn run(plan: &Plan) -> bool {
    let mut board = Board::new();
    let calls = Calls::linked();
    for (case, mut seed) in plan.seeds("line-peer") {
        one_map(&mut board, &calls, &mut seed, case);
    }
    let equal = board.print();
    for (name, slanted) in [("axis", 0), ("slanted", 40)] {
        for table in [1, 0] {
            time_world(name, slanted, table, plan.seed);
        }
    }
    for (name, file) in KEPT {
        for table in [1, 0] {
            time_kept(name, file, table, plan.seed);
        }
    }
    equal
}

/// A tree of finite planes: a world, or a small one with few planes that are met again and again.
fn a_map(seed: &mut Seed) -> Made {
    if seed.once_in(3) {
        let nodes = 100 + seed.below(1500) as usize;
        let slanted = [0, 40, 100][seed.below(3) as usize];
        let world = World { nodes, slanted, visibility: 0, lightmaps: 0, faces: 0 };
        return Made::new(world::tables(seed, &world), &maps::Layout::plain());
    }
    let planes = tables::few_planes(seed, 0);
    let count = 1 + seed.below(30) as usize;
    let shape = if seed.once_in(6) { Shape::Chain } else { Shape::Balanced };
    let nodes = shape::nodes(seed, shape, count, planes.len());
    tables::of_nodes(seed, planes, &nodes)
}

pub fn is_tame(floats: &[f32]) -> bool {
    floats.iter().all(|x| x.abs() <= 1e6)
}

fn one_map(board: &mut Board, calls: &Calls, seed: &mut Seed, case: u64) {
    let made = a_map(seed);
    let asked = Asked { calls, name: &|| format!("case {case}"), file: &made.file, map: &made.map };
    let page = asked.paper();
    let tame = made.tables.planes.iter().all(|p| is_tame(&p.normal) && is_tame(&[p.dist]));
    if !tame || richter::load(&made.file).is_err() {
        return;
    }
    for table in 0..2 {
        let section = [paper::RENDER_NODES, paper::CLIP_NODES][table as usize];
        let mut marks = vec![0; page.count(section) as usize];
        if tree::check(&page, table as u32, 0, &mut marks).is_err() {
            continue;
        }
        let peer = Peer::of(&page, table);
        if peer.planes.iter().any(|p| !is_tame(&p.normal)) {
            continue;
        }
        let hull = hull_words(seed, table, 0);
        for _ in 0..60 {
            let shot = a_shot(seed, &made);
            if is_tame(&shot) {
                one(board, &asked, &hull, &peer, &shot);
            }
        }
    }
}

fn a_shot(seed: &mut Seed, made: &Made) -> [f32; 6] {
    if seed.once_in(2) {
        return tables::segment(seed, &made.tables.planes);
    }
    let length = [1.0, 100.0, 1000.0, 8000.0][seed.below(4) as usize];
    through(seed, [-world::SIDE; 3], [world::SIDE; 3], length)
}

fn one(board: &mut Board, asked: &Asked, hull: &[u64], peer: &Peer, shot: &[f32; 6]) {
    let mut ours = [7; LINE_WORDS];
    let refusal = (asked.calls.trace_line)(asked.file, asked.map, hull, shot, &mut ours);
    let theirs = peer.line(shot);
    // 0 less a distance of 0 is 0, and its negation -0
    let turned_zero = ours[7] == 0 && theirs[7] == 0x8000_0000;
    let mut expected = theirs;
    if turned_zero {
        expected[7] = 0;
    }
    let difference = (refusal != 0 || ours != expected)
        .then(|| format!("answers {refusal} {ours:x?}, the peer {theirs:x?}"));
    let line = match (turned_zero, ours[0] < 0x3f80_0000) {
        (true, _) => "peer, a turned plane of distance 0 (0 here, -0 there)",
        (_, true) => "peer, an impact",
        _ => "peer, no impact",
    };
    board.count(line, (refusal, Side::Paper), difference, || {
        asked.input(format!("table {}, segment {}", hull[0], bits_of(shot)))
    });
}

/// Shots, and how many of them are timed at once: a block is short, so that its least time is one in
/// which nothing else ran, and a processor forgets it while the other blocks run.
const SHOTS: usize = 20_000;
const BLOCK: usize = 200;

/// Compiled maps that are kept; the first node of either table is the root of the world's hull 0 or 1.
const KEPT: [(&str, &[u8]); 3] = [
    ("corridors", include_bytes!("../../../../maps/corridors.bsp")),
    ("court", include_bytes!("../../../../maps/court.bsp")),
    ("lock", include_bytes!("../../../../maps/lock.bsp")),
];

/// A file and its map words, of which whole lines are timed through a table, and the box that they
/// start in.
struct Timed<'a> {
    name: &'a str,
    file: &'a [u8],
    map: &'a [u32],
    table: u64,
    low: [f32; 3],
    high: [f32; 3],
}

/// Of a generated map.
fn time_world(name: &str, slanted: u64, table: u64, number: u64) {
    let mut seed = Seed::named(number, name);
    let world = World { nodes: 10_000, slanted, visibility: 0, lightmaps: 0, faces: 0 };
    let made = Made::new(world::tables(&mut seed, &world), &maps::Layout::plain());
    let (low, high) = ([-world::SIDE; 3], [world::SIDE; 3]);
    let timed = Timed { name, file: &made.file, map: &made.map, table, low, high };
    time(&mut seed, &timed, [100.0, 4000.0]);
}

/// Of a compiled map, from points in the box of its world.
fn time_kept(name: &str, file: &[u8], table: u64, number: u64) {
    let mut map = [0; 31];
    assert_eq!(calls::load(file, &mut map), 0, "{name} loads");
    let bytes = |at: usize| <[u8; 4]>::try_from(&file[at..at + 4]).expect("four bytes");
    // the directory's entry of the models, and the first model's mins and maxs
    let models = u32::from_le_bytes(bytes(4 + 8 * 14)) as usize;
    let float = |i: usize| f32::from_le_bytes(bytes(models + 4 * i));
    let (low, high) = ([float(0), float(1), float(2)], [float(3), float(4), float(5)]);
    let timed = Timed { name, file, map: &map, table, low, high };
    time(&mut Seed::named(number, name), &timed, [100.0, 1000.0]);
}

/// The time of a whole line, of `bsp_trace` and of the peer, over the same shots of two lengths: the
/// least time of each block.
fn time(seed: &mut Seed, timed: &Timed, lengths: [f32; 2]) {
    let peer = Peer::of(&paper::Map::new(timed.file, timed.map).expect("a map"), timed.table);
    let hull = hull_words(seed, timed.table, 0);
    for length in lengths {
        let shot = |_| through(seed, timed.low, timed.high, length);
        let shots: Vec<[f32; 6]> = (0..SHOTS).map(shot).collect();
        let [line, trace, theirs] = least_times(&shots, timed, &hull, &peer);
        println!(
            "{}, {}, {length}: {line:.0} ns a line; bsp_trace {trace:.0}, ratio {:.2}; the peer \
             {theirs:.0}, ratio {:.2}",
            timed.name,
            ["render", "clip"][timed.table as usize],
            line / trace,
            line / theirs
        );
    }
}

/// ns a shot of the whole line, of `bsp_trace` and of the peer.
fn least_times(shots: &[[f32; 6]], timed: &Timed, hull: &[u64], peer: &Peer) -> [f64; 3] {
    let (file, map, mut out) = (timed.file, timed.map, [0; TRACE_WORDS]);
    let mut least = vec![[f64::MAX; 3]; SHOTS / BLOCK];
    for _ in 0..30 {
        for (least, block) in least.iter_mut().zip(shots.chunks(BLOCK)) {
            let mut line = |shot: [f32; 6]| {
                calls::trace_line(file, map, hull, &shot, &mut out);
                out[0]
            };
            least[0] = least[0].min(time_of(block, &mut line));
            let mut trace = |shot: [f32; 6]| {
                calls::trace(file, map, hull, &shot, &mut out);
                out[0]
            };
            least[1] = least[1].min(time_of(block, &mut trace));
            least[2] = least[2].min(time_of(block, &mut |shot| peer.raw(&shot).1[0] as u64));
        }
    }
    [0, 1, 2].map(|side| least.iter().map(|least| least[side]).sum::<f64>() / SHOTS as f64)
}

/// A shot of a length from somewhere in the box.
fn through(seed: &mut Seed, low: [f32; 3], high: [f32; 3], length: f32) -> [f32; 6] {
    let p = [0, 1, 2].map(|i| (low[i] + high[i]) / 2.0 + floats::half(seed) * (high[i] - low[i]));
    let way = floats::unit(seed);
    [p[0], p[1], p[2], p[0] + length * way[0], p[1] + length * way[1], p[2] + length * way[2]]
}

fn time_of(block: &[[f32; 6]], one: &mut dyn FnMut([f32; 6]) -> u64) -> f64 {
    let start = Instant::now();
    for shot in block {
        black_box(one(black_box(*shot)));
    }
    start.elapsed().as_nanos() as f64
}

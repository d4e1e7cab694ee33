//! Maps made around a node table, for walks, traces and the tree check.

use maps::make::CONTENTS;
use maps::record::{ClipNode, Leaf, Plane, RenderNode, Tables};
use maps::shape::{Child, Node};
use maps::{floats, shape, Layout, Seed};

use crate::modes::records::map_of_header;

/// A file and the map record of its header.
pub struct Made {
    pub tables: Tables,
    pub file: Vec<u8>,
    pub map: [u32; 31],
}

impl Made {
    pub fn new(tables: Tables, layout: &Layout) -> Made {
        let file = tables.file(layout);
        let map = map_of_header(&file);
        Made { tables, file, map }
    }
}

/// The same nodes as render and as clip nodes, each end a leaf and a contents code.
pub fn of_nodes(seed: &mut Seed, planes: Vec<Plane>, nodes: &[Node]) -> Made {
    let leaves = 1 + seed.below(6) as usize;
    let mut tables = Tables { planes, ..Tables::smallest() };
    tables.leaves = (0..leaves).map(|_| leaf(seed)).collect();
    for node in nodes {
        let ends = [seed.below(leaves as u64) as i16, seed.below(leaves as u64) as i16];
        let child = |side: usize, end: i16| match node.children[side] {
            Child::Node(n) => n as i16,
            Child::End => end,
        };
        let plane = node.plane as i32;
        let (front, back) = (ends[0], ends[1]);
        let codes = ends.map(|end| tables.leaves[end as usize].contents as i16);
        tables.render_nodes.push(RenderNode {
            plane,
            children: [child(0, -1 - front), child(1, -1 - back)],
            min: [-1; 3],
            max: [1; 3],
            face: 0,
            faces: 0,
        });
        tables
            .clip_nodes
            .push(ClipNode { plane, children: [child(0, codes[0]), child(1, codes[1])] });
    }
    Made::new(tables, &Layout::plain())
}

/// A leaf, Solid or Empty in most.
fn leaf(seed: &mut Seed) -> Leaf {
    let contents = match seed.below(4) {
        0 => -CONTENTS[seed.below(CONTENTS.len() as u64) as usize],
        1 => -1,
        _ => -2,
    };
    Leaf {
        contents,
        visibility: -1,
        min: [0; 3],
        max: [0; 3],
        facelist: 0,
        faces: 0,
        sounds: [0; 4],
    }
}

/// A plane of a file as the Rust makes it.
pub fn rust_plane(p: &Plane) -> richter::Plane {
    match p.kind {
        0..=2 => richter::Plane::axis(p.kind as u32, p.dist),
        _ => richter::Plane::new(p.normal, p.dist),
    }
}

/// One to four planes, special ones once in `wild`.
pub fn few_planes(seed: &mut Seed, wild: u64) -> Vec<Plane> {
    (0..1 + seed.below(4)).map(|_| shape::plane(seed, wild)).collect()
}

/// A chain that the point follows to its end: each node's next one lies on the point's side. The
/// last one's is now and then outside the table, or a node of the chain.
pub fn chain_along(seed: &mut Seed, planes: &[Plane], count: usize, p: [f32; 3]) -> Vec<Node> {
    let sides: Vec<u32> = planes.iter().map(|plane| rust_plane(plane).point_side(p)).collect();
    let last = match seed.below(6) {
        0 => Child::Node(count),
        1 => Child::Node(seed.below(count as u64) as usize),
        _ => Child::End,
    };
    (0..count)
        .map(|at| {
            let plane = seed.below(planes.len() as u64) as usize;
            let mut children = [Child::End; 2];
            children[sides[plane] as usize] =
                if at + 1 < count { Child::Node(at + 1) } else { last };
            Node { plane, children }
        })
        .collect()
}

/// A chain in which each node has the next one on both sides.
pub fn shared(seed: &mut Seed, planes: usize, count: usize) -> Vec<Node> {
    shape::nodes(seed, maps::Shape::Shared, count, planes)
}

/// A few nodes with any children in or just outside the table, so that loops are common.
pub fn small_any(seed: &mut Seed, planes: usize) -> Vec<Node> {
    let count = 1 + seed.below(6);
    let outside = seed.below(3);
    (0..count)
        .map(|_| {
            let mut child = || match seed.below(4) {
                0 => Child::End,
                _ => Child::Node(seed.below(count + outside) as usize),
            };
            let children = [child(), child()];
            let plane = seed.below(planes as u64 + outside) as usize;
            Node { plane, children }
        })
        .collect()
}

/// Any float, a NaN of another pattern now and then.
pub fn odd_float(seed: &mut Seed) -> f32 {
    match seed.below(6) {
        0 => f32::from_bits(0x7f80_0001 + seed.below(0x7f_fffe) as u32),
        1 => f32::from_bits(0xff80_0001 + seed.below(0x7f_fffe) as u32),
        _ => floats::float(seed),
    }
}

/// A point of `maps::query`, with an odd float now and then.
pub fn point(seed: &mut Seed, planes: &[Plane]) -> [f32; 3] {
    let mut p = maps::query::point(seed, planes);
    if seed.once_in(12) {
        p[seed.below(3) as usize] = odd_float(seed);
    }
    p
}

/// A segment of `maps::query`, with an odd float now and then.
pub fn segment(seed: &mut Seed, planes: &[Plane]) -> [f32; 6] {
    let (start, end) = maps::query::segment(seed, planes);
    let mut s = [start[0], start[1], start[2], end[0], end[1], end[2]];
    if seed.once_in(12) {
        s[seed.below(6) as usize] = odd_float(seed);
    }
    s
}

/// A segment with one end at the point given, or both.
pub fn segment_at(seed: &mut Seed, planes: &[Plane], p: [f32; 3]) -> [f32; 6] {
    let q = point(seed, planes);
    let (start, end) = match seed.below(4) {
        0 => (p, p),
        1 => (p, q),
        2 => (q, p),
        _ => (p, [p[0] + floats::half(seed), p[1] + floats::half(seed), p[2]]),
    };
    [start[0], start[1], start[2], end[0], end[1], end[2]]
}

/// A root: 0, in range, just outside, or far outside in a way that a cut to 32 bits would hide.
pub fn root(seed: &mut Seed, count: u64) -> u64 {
    match seed.below(10) {
        0..=3 => 0,
        4..=6 if count > 0 => seed.below(count),
        7 => count + seed.below(2),
        8 => (1 << 32) + seed.below(count + 1),
        9 => u64::MAX - seed.below(2),
        _ => 0,
    }
}

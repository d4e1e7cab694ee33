//! Node tables by shape, for clip and render nodes alike.

use crate::{floats, record::Plane, Seed};

#[derive(Copy, Clone, Debug, Eq, PartialEq)]
pub enum Shape {
    /// A tree that halves a box, node 0 the root: walks and traces are as on a real map.
    Balanced,
    /// Each node has one further node, on either side.
    Chain,
    /// Each node has the next one on both sides.
    Shared,
    /// A balanced tree with some children replaced by any node.
    Looping,
    /// Any child anywhere, sometimes outside the table; any plane, sometimes outside too.
    Random,
}

pub const SHAPES: [Shape; 5] =
    [Shape::Balanced, Shape::Chain, Shape::Shared, Shape::Looping, Shape::Random];

/// A child: a node, or an end that the caller gives a meaning.
#[derive(Copy, Clone, Debug, Eq, PartialEq)]
pub enum Child {
    Node(usize),
    End,
}

#[derive(Copy, Clone, Debug)]
pub struct Node {
    pub plane: usize,
    pub children: [Child; 2],
}

/// A plane record. Once in `wild` anything; otherwise an axis plane, or a slanted one in a third.
pub fn plane(seed: &mut Seed, wild: u64) -> Plane {
    if wild > 0 && seed.once_in(wild) {
        return Plane {
            normal: floats::normal(seed),
            dist: floats::float(seed),
            kind: match seed.below(8) {
                0 => seed.next() as i32,
                1 => -1,
                n => (n % 6) as i32,
            },
        };
    }
    let dist = floats::coordinate(seed, 0);
    if seed.once_in(3) {
        return Plane { normal: floats::unit(seed), dist, kind: 3 + seed.below(3) as i32 };
    }
    let axis = seed.below(3) as usize;
    let mut normal = [0.0; 3];
    normal[axis] = 1.0;
    // an exact unit under another type becomes an axis plane too
    let kind = if seed.once_in(4) { 5 } else { axis as i32 };
    Plane { normal, dist, kind }
}

/// A table of `count` nodes over `planes` planes.
pub fn nodes(seed: &mut Seed, shape: Shape, count: usize, planes: usize) -> Vec<Node> {
    match shape {
        Shape::Balanced => balanced(seed, count, planes),
        Shape::Looping => {
            let mut table = balanced(seed, count, planes);
            for node in &mut table {
                if seed.once_in(6) {
                    let side = seed.below(2) as usize;
                    node.children[side] = Child::Node(seed.below(count as u64) as usize);
                }
            }
            table
        }
        Shape::Chain => (0..count)
            .map(|at| {
                let mut children = [next(at, count), Child::End];
                if seed.once_in(2) {
                    children.swap(0, 1);
                }
                Node { plane: some_plane(seed, planes), children }
            })
            .collect(),
        Shape::Shared => (0..count)
            .map(|at| Node { plane: some_plane(seed, planes), children: [next(at, count); 2] })
            .collect(),
        Shape::Random => (0..count).map(|_| random(seed, count, planes)).collect(),
    }
}

fn balanced(seed: &mut Seed, count: usize, planes: usize) -> Vec<Node> {
    let mut table = Vec::with_capacity(count);
    if count > 0 {
        halve(seed, count, planes, &mut table);
    }
    table
}

/// The node after this one, or the end.
fn next(at: usize, count: usize) -> Child {
    if at + 1 < count {
        Child::Node(at + 1)
    } else {
        Child::End
    }
}

fn random(seed: &mut Seed, count: usize, planes: usize) -> Node {
    let mut child = || match seed.below(4) {
        0 => Child::End,
        1 if seed.once_in(8) => Child::Node(seed.below(32_768) as usize),
        _ => Child::Node(seed.below(count as u64 + 1) as usize),
    };
    let children = [child(), child()];
    let mut plane = some_plane(seed, planes);
    if seed.once_in(40) {
        plane = planes + seed.below(3) as usize;
    }
    Node { plane, children }
}

fn some_plane(seed: &mut Seed, planes: usize) -> usize {
    if planes == 0 {
        0
    } else {
        seed.below(planes as u64) as usize
    }
}

/// A tree of `count` nodes, at least one; answers its root.
fn halve(seed: &mut Seed, count: usize, planes: usize, table: &mut Vec<Node>) -> usize {
    let at = table.len();
    table.push(Node { plane: some_plane(seed, planes), children: [Child::End; 2] });
    let rest = count - 1;
    // near the middle
    let front = rest / 2 + if rest > 4 { seed.below(3) as usize } else { 0 };
    let parts = [front, rest - front];
    for (side, part) in parts.into_iter().enumerate() {
        if part > 0 {
            table[at].children[side] = Child::Node(halve(seed, part, planes, table));
        }
    }
    at
}

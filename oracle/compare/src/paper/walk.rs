//! Hulls, point contents, leaf lookup and traces, with the nodes entered.

use super::fields::{float_word, is_contents};
use super::plane::{same, Crossing, Plane, Vector};
use super::records::{plane_words, Child};
use super::*;

/// Not one of the document's numbers: a trace longer than the comparison waits for.
pub const GAVE_UP: u32 = u32::MAX;

/// The calls that a trace may have open at once.
const DEPTH: usize = 512;

/// A node table: of a map, or of a box with these mins and maxs.
#[derive(Copy, Clone, Debug)]
pub enum Table {
    Render,
    Clip,
    Box(Vector, Vector),
}

impl Table {
    /// Its number in the words of a hull.
    pub fn number(self) -> u32 {
        match self {
            Table::Render => 0,
            Table::Clip => 1,
            Table::Box(..) => 2,
        }
    }
}

/// A hull as a walk takes it; its node count is never used.
#[derive(Copy, Clone, Debug)]
pub struct Hull {
    pub table: Table,
    pub root: u64,
}

impl Hull {
    /// Of a hull's first nine words; a table above 2 is 20.
    pub fn of_words(words: &[u64]) -> Answer<Hull> {
        let three = |at: usize| [at, at + 1, at + 2].map(|at| f32::from_bits(words[at] as u32));
        let table = match words[0] {
            0 => Table::Render,
            1 => Table::Clip,
            2 => Table::Box(three(3), three(6)),
            _ => return Err(20),
        };
        Ok(Hull { table, root: words[1] })
    }
}

/// The size of a hull's tree before the tree check: no nodes, no height.
pub const UNKNOWN_SIZE: [u64; 2] = [0, 0];

/// The words of a box's hull; 21 where a minimum is at or above its maximum.
pub fn box_words(bounds: &[f32]) -> Answer<Vec<u64>> {
    if (0..3).any(|at| bounds[at] >= bounds[at + 3]) {
        return Err(21);
    }
    let mut out = vec![2, 0, 6];
    out.extend(bounds[..6].iter().map(|x| float_word(*x)));
    out.extend(UNKNOWN_SIZE);
    Ok(out)
}

impl Map<'_> {
    /// The words of a model's hull: both numbers (20), then the model's own record (23). The
    /// models before it are not asked for: they are leaf_id's.
    pub fn hull_words(&self, model: u64, index: u64) -> Answer<Vec<u64>> {
        if model >= self.count(MODELS) || index > 2 {
            return Err(20);
        }
        let own = self.by_index(MODELS, model, records::model)?;
        let root = own.roots[index as usize];
        let bounds: [f32; 6] = match index {
            0 => [0.0; 6],
            1 => [-16.0, -16.0, -24.0, 16.0, 16.0, 32.0],
            _ => [-32.0, -32.0, -24.0, 32.0, 32.0, 64.0],
        };
        let mut out = vec![index.min(1), root, self.node_count_from(root)];
        out.extend(bounds.map(float_word));
        out.extend(UNKNOWN_SIZE);
        Ok(out)
    }
}

pub struct Node {
    pub plane: u64,
    pub children: [Child; 2],
}

/// What a walk needs of a table.
#[derive(Copy, Clone)]
pub(super) struct Nodes<'a> {
    pub map: &'a Map<'a>,
    pub table: Table,
    /// Leaf lookup ends at a leaf's number, everything else at its contents.
    pub ends_at_leaf: bool,
    /// A lent table of nodes in threes stands in for the file's nodes.
    pub rows: Option<&'a [i32]>,
}

/// A row of a lent table, read whole: 23 where its plane's number is negative or a negative child is
/// no contents code.
fn row(words: &[i32]) -> Answer<Node> {
    let child = |word: i32| -> Answer<Child> {
        match word {
            0.. => Ok(Child::Node(word as u64)),
            _ if is_contents(-(word as i64)) => Ok(Child::Contents(-(word as i64) as u64)),
            _ => Err(23),
        }
    };
    if words[0] < 0 {
        return Err(23);
    }
    Ok(Node { plane: words[0] as u64, children: [child(words[1])?, child(words[2])?] })
}

impl Nodes<'_> {
    pub fn count(&self) -> u64 {
        if let Some(rows) = self.rows {
            return rows.len() as u64 / 3;
        }
        match self.table {
            Table::Render => self.map.count(RENDER_NODES),
            Table::Clip => self.map.count(CLIP_NODES),
            Table::Box(..) => 6,
        }
    }

    /// A node in range, read whole (23).
    pub fn node(&self, index: u64) -> Answer<Node> {
        if let Some(rows) = self.rows {
            return row(&rows[3 * index as usize..]);
        }
        match self.table {
            Table::Render => {
                let node = self.map.render_node(index)?;
                Ok(Node { plane: node.plane, children: node.children })
            }
            Table::Clip => {
                let node = self.map.clip_node(index)?;
                Ok(Node { plane: node.plane, children: node.children })
            }
            Table::Box(..) => Ok(box_node(index)),
        }
    }

    /// A plane: 30 outside its table, then 23.
    pub fn plane(&self, index: u64) -> Answer<Plane> {
        match self.table {
            Table::Box(mins, maxs) => {
                let axis = index as usize / 2;
                let bound = if index.is_multiple_of(2) { maxs } else { mins };
                Ok(Plane::axis(axis, bound[axis]))
            }
            _ if index >= self.map.count(PLANES) => Err(30),
            _ => self.map.plane(index),
        }
    }

    /// What a child that is no node gives: a contents code, or a leaf's number (30), or its
    /// contents (23).
    pub fn end(&self, child: Child) -> Answer<u64> {
        match child {
            Child::Contents(code) => Ok(code),
            Child::Leaf(leaf) if leaf >= self.map.count(LEAVES) => Err(30),
            Child::Leaf(leaf) if self.ends_at_leaf => Ok(leaf),
            Child::Leaf(leaf) => Ok(self.map.leaf(leaf)?.contents),
            Child::Node(_) => unreachable!("a node is no end"),
        }
    }
}

/// The six nodes of a box: outside Empty, inside Solid.
pub fn box_node(index: u64) -> Node {
    let (empty, solid) = (Child::Contents(1), Child::Contents(2));
    let next = Child::Node(index + 1);
    let children = match index {
        5 => [solid, empty],
        _ if index.is_multiple_of(2) => [empty, next],
        _ => [next, empty],
    };
    Node { plane: index, children }
}

/// An answer and the nodes entered on the way to it.
pub struct Walked<T> {
    pub value: Answer<T>,
    pub nodes: Vec<u32>,
}

pub(super) fn walk(nodes: &Nodes, root: u64, p: Vector) -> Walked<u64> {
    let mut entered = Vec::new();
    let value = steps(nodes, root, p, &mut entered);
    Walked { value, nodes: entered }
}

fn steps(nodes: &Nodes, root: u64, p: Vector, entered: &mut Vec<u32>) -> Answer<u64> {
    let mut at = root;
    loop {
        if at >= nodes.count() {
            return Err(30);
        }
        if entered.len() as u64 == nodes.count() {
            return Err(31);
        }
        let node = nodes.node(at)?;
        entered.push(at as u32);
        let side = nodes.plane(node.plane)?.point_side(p);
        match node.children[side] {
            Child::Node(next) => at = next,
            end => return nodes.end(end),
        }
    }
}

/// `contents_at_point`: the contents code.
pub fn contents(map: &Map, hull: &Hull, p: Vector) -> Walked<u64> {
    walk(&Nodes { map, table: hull.table, ends_at_leaf: false, rows: None }, hull.root, p)
}

/// `find_leaf` from any root: the leaf.
pub fn find_leaf(map: &Map, root: u64, p: Vector) -> Walked<u64> {
    walk(&Nodes { map, table: Table::Render, ends_at_leaf: true, rows: None }, root, p)
}

#[derive(Clone, Debug)]
pub struct Trace {
    pub start: Vector,
    pub start_ratio: f32,
    pub end: Vector,
    /// Ratio and plane; none for a terminal end.
    pub boundary: Option<(f32, Plane)>,
    pub contents: u64,
    pub start_solid: bool,
}

const SOLID: u64 = 2;

impl Trace {
    fn new(start: Vector, start_ratio: f32, end: Vector, contents: u64) -> Trace {
        let start_solid = contents == SOLID;
        Trace { start, start_ratio, end, boundary: None, contents, start_solid }
    }

    /// Joined end to end: 19 where this one is terminal or ends elsewhere than the other starts.
    pub fn join(self, other: Trace) -> Answer<Trace> {
        if self.boundary.is_none() || !same(self.end, other.start) {
            return Err(19);
        }
        if self.contents == other.contents {
            return Ok(Trace { end: other.end, boundary: other.boundary, ..self });
        }
        if self.contents == SOLID {
            let Trace { end, boundary, contents, .. } = other;
            return Ok(Trace { end, boundary, contents, start_solid: true, ..self });
        }
        Ok(self)
    }

    /// The seventeen words of an answer after so many visits.
    pub fn words(&self, visits: u64) -> Vec<u64> {
        let mut out = vec![visits, self.contents, self.start_solid as u64];
        out.extend(self.start.map(float_word));
        out.push(float_word(self.start_ratio));
        out.extend(self.end.map(float_word));
        match &self.boundary {
            None => out.extend([0; 7]),
            Some((ratio, plane)) => {
                out.extend([1, float_word(*ratio)]);
                plane_words(&mut out, plane);
            }
        }
        out
    }
}

struct Tracing<'a> {
    nodes: Nodes<'a>,
    entered: Vec<u32>,
    patience: usize,
}

impl Tracing<'_> {
    /// From node `at` with `left` calls left.
    fn from(&mut self, at: u64, left: usize, start: Vector, end: Vector) -> Answer<Trace> {
        if at >= self.nodes.count() {
            return Err(30);
        }
        if left == 0 {
            return Err(32);
        }
        let node = self.nodes.node(at)?;
        if self.entered.len() == self.patience {
            return Err(GAVE_UP);
        }
        self.entered.push(at as u32);
        let plane = self.nodes.plane(node.plane)?;
        match plane.crossing(start, end) {
            Crossing::Stays(side) => match node.children[side] {
                Child::Node(next) => self.from(next, left - 1, start, end),
                leaf => Ok(Trace::new(start, 0.0, end, self.nodes.end(leaf)?)),
            },
            Crossing::At { ratio, point } => {
                self.crossing(&node, &plane, (ratio, point), left, start, end)
            }
        }
    }

    /// The near part, and the far part unless the near one ended before the crossing.
    fn crossing(
        &mut self,
        node: &Node,
        plane: &Plane,
        (ratio, mid): (f32, Vector),
        left: usize,
        start: Vector,
        end: Vector,
    ) -> Answer<Trace> {
        let (near_side, far_side) = (plane.point_side(start), plane.point_side(end));
        let near = match node.children[near_side] {
            Child::Node(next) => self.from(next, left - 1, start, mid)?,
            leaf => {
                let turned = if near_side == 0 { *plane } else { plane.negated() };
                let mut near = Trace::new(start, 0.0, mid, self.nodes.end(leaf)?);
                near.boundary = Some((ratio, turned));
                near
            }
        };
        if near.boundary.is_none() || !same(near.end, mid) {
            return Ok(near);
        }
        let far = match node.children[far_side] {
            Child::Node(next) => self.from(next, left - 1, mid, end)?,
            leaf => Trace::new(mid, ratio, end, self.nodes.end(leaf)?),
        };
        near.join(far)
    }
}

/// `trace`, given up after `patience` nodes.
pub fn trace(map: &Map, hull: &Hull, start: Vector, end: Vector, patience: usize) -> Walked<Trace> {
    let nodes = Nodes { map, table: hull.table, ends_at_leaf: false, rows: None };
    trace_in(nodes, hull.root, [start, end], patience)
}

/// The same of any table.
pub(super) fn trace_in(
    nodes: Nodes,
    root: u64,
    [start, end]: [Vector; 2],
    patience: usize,
) -> Walked<Trace> {
    let mut tracing = Tracing { nodes, entered: Vec::new(), patience };
    let value = tracing.from(root, DEPTH, start, end);
    Walked { value, nodes: tracing.entered }
}

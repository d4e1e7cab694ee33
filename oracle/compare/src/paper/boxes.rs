//! Note 12 of document 02: the contents that a box of points may meet.

use super::plane::Vector;
use super::records::Child;
use super::tree;
use super::walk::{Hull, Nodes};
use super::*;

/// The levels allowed, the root's counted.
const DEPTH: u32 = 512;

struct Boxed<'a> {
    nodes: Nodes<'a>,
    corners: [Vector; 8],
}

impl Boxed<'_> {
    /// The set met from a node on: the side on which all corners' distances fall, or both, the front
    /// one first. A NaN distance is below 0.
    fn node(&self, at: u64, left: u32) -> Answer<u64> {
        if at >= self.nodes.count() {
            return Err(30);
        }
        if left == 0 {
            return Err(32);
        }
        let node = self.nodes.node(at)?;
        let plane = self.nodes.plane(node.plane)?;
        let [front, back] = node.children;
        match self.corners.iter().filter(|corner| plane.point_dist(**corner) >= 0.0).count() {
            8 => self.child(front, left - 1),
            0 => self.child(back, left - 1),
            _ => Ok(self.child(front, left - 1)? | self.child(back, left - 1)?),
        }
    }

    fn child(&self, child: Child, left: u32) -> Answer<u64> {
        match child {
            Child::Node(next) => self.node(next, left),
            end => Ok(1 << self.nodes.end(end)?),
        }
    }
}

/// Mins, then maxs: 28 for a bound that is not finite or a minimum above its maximum, with the marks
/// untouched; then the tree check of the hull's root with its marks; then the set, bit n for code n.
pub fn contents_box(map: &Map, hull: &Hull, bounds: &[f32], marks: &mut [u8]) -> Answer<u64> {
    let finite = bounds[..6].iter().all(|bound| bound.is_finite());
    if !finite || (0..3).any(|at| bounds[at] > bounds[at + 3]) {
        return Err(28);
    }
    tree::check(map, hull.table.number(), hull.root, marks)?;
    let mut corners = [[0.0; 3]; 8];
    for (which, corner) in corners.iter_mut().enumerate() {
        for at in 0..3 {
            corner[at] = bounds[at + 3 * (which >> at & 1)];
        }
    }
    let nodes = Nodes { map, table: hull.table, ends_at_leaf: false, rows: None };
    Boxed { nodes, corners }.node(hull.root, DEPTH)
}

//! Note 7 of document 02: the contents of many points in one call.

use std::collections::HashMap;

use super::plane::Vector;
use super::records::Child;
use super::walk::{Hull, Nodes};
use super::*;

/// The most points that a call takes.
const MOST: usize = 1_024;

/// The points of the coordinates: 24 for more than 1,024, or coordinates not in threes.
pub fn points_of(floats: &[f32]) -> Answer<Vec<Vector>> {
    if floats.len() > 3 * MOST || !floats.len().is_multiple_of(3) {
        return Err(24);
    }
    Ok(floats.chunks(3).map(|p| [p[0], p[1], p[2]]).collect())
}

/// The different runs of sides from the root, as a number each: a run is the one before it and a
/// side. The run of no sides is 0.
#[derive(Default)]
struct Runs {
    next: HashMap<(usize, usize), usize>,
    /// Whether a point reached a node by the run of no sides.
    root: bool,
}

impl Runs {
    fn on(&mut self, run: usize, side: usize) -> usize {
        let number = self.next.len() + 1;
        *self.next.entry((run, side)).or_insert(number)
    }
}

/// One point's walk, which notes the run of sides by which it reaches each node.
fn walk(nodes: &Nodes, root: u64, p: Vector, runs: &mut Runs) -> Answer<u64> {
    let (mut at, mut run) = (root, None);
    let mut entered = 0;
    loop {
        if at >= nodes.count() {
            return Err(30);
        }
        if entered == nodes.count() {
            return Err(31);
        }
        entered += 1;
        let node = nodes.node(at)?;
        let side = nodes.plane(node.plane)?.point_side(p);
        let here = match run {
            None => {
                runs.root = true;
                0
            }
            Some((before, side)) => runs.on(before, side),
        };
        run = Some((here, side));
        match node.children[side] {
            Child::Node(next) => at = next,
            end => return nodes.end(end),
        }
    }
}

/// The code of each point in their order, and how many different runs of sides lead to nodes; or the
/// refusal of the first point that is refused. No points: no codes, no runs.
pub fn contents_points(map: &Map, hull: &Hull, points: &[Vector]) -> Answer<(Vec<u8>, u64)> {
    let nodes = Nodes { map, table: hull.table, ends_at_leaf: false, rows: None };
    let mut runs = Runs::default();
    let mut codes = Vec::new();
    for p in points {
        codes.push(walk(&nodes, hull.root, *p, &mut runs)? as u8);
    }
    Ok((codes, runs.next.len() as u64 + runs.root as u64))
}

//! The tree check, and the size of a hull's tree (document 02, note 8).

use std::collections::BTreeSet;

use super::fields::float_word;
use super::records::Child;
use super::walk::{box_node, UNKNOWN_SIZE};
use super::*;

/// The greatest depth allowed; the root has depth 1.
const DEPTH: u64 = 512;

/// A node table: of a map, or the six nodes of a box.
#[derive(Copy, Clone, Eq, PartialEq)]
enum Table {
    Render,
    Clip,
    Box,
}

struct Check<'a> {
    map: &'a Map<'a>,
    table: Table,
    reached: Vec<bool>,
    height: u64,
}

impl Check<'_> {
    fn planes(&self) -> u64 {
        match self.table {
            Table::Box => 6,
            _ => self.map.count(PLANES),
        }
    }

    fn children(&self, at: u64) -> Answer<(u64, [Child; 2])> {
        match self.table {
            Table::Render => self.map.render_node(at).map(|node| (node.plane, node.children)),
            Table::Clip => self.map.clip_node(at).map(|node| (node.plane, node.children)),
            Table::Box => {
                let node = box_node(at);
                Ok((node.plane, node.children))
            }
        }
    }

    /// A node at this depth: index, reached before, depth, its record, its plane; front, then back.
    fn node(&mut self, at: u64, depth: u64) -> Answer<()> {
        if at >= self.reached.len() as u64 {
            return Err(30);
        }
        if self.reached[at as usize] {
            return Err(34);
        }
        self.reached[at as usize] = true;
        if depth > DEPTH {
            return Err(32);
        }
        let (plane, children) = self.children(at)?;
        if plane >= self.planes() {
            return Err(30);
        }
        self.height = self.height.max(depth);
        for child in children {
            match child {
                Child::Node(next) => self.node(next, depth + 1)?,
                Child::Leaf(leaf) if leaf >= self.map.count(LEAVES) => return Err(30),
                _ => {}
            }
        }
        Ok(())
    }
}

/// Table 0 is the render nodes, 1 the clip nodes, 2 a box; another names none (20). The answer is
/// the tree's height. Marks that are too short are 22 and untouched; else the first ones, one per
/// node, are zero afterwards.
pub fn check(map: &Map, table: u32, root: u64, marks: &mut [u8]) -> Answer<u64> {
    let (table, count) = match table {
        0 => (Table::Render, map.count(RENDER_NODES)),
        1 => (Table::Clip, map.count(CLIP_NODES)),
        2 => (Table::Box, 6),
        _ => return Err(20),
    };
    if (marks.len() as u64) < count {
        return Err(22);
    }
    marks[..count as usize].fill(0);
    let mut check = Check { map, table, reached: vec![false; count as usize], height: 0 };
    check.node(root, 1)?;
    Ok(check.height)
}

/// How many nodes the tree of a root has, and how many levels: from the root on, the children of a
/// level's nodes are the next level, in no order; the tree is all of them. Of a root that passed.
fn size(map: &Map, table: u32, root: u64) -> [u64; 2] {
    let children = |at: &u64| {
        let children = match table {
            0 => map.render_node(*at).map(|node| node.children),
            _ => map.clip_node(*at).map(|node| node.children),
        };
        children.into_iter().flatten().filter_map(|child| match child {
            Child::Node(next) => Some(next),
            _ => None,
        })
    };
    let mut tree = BTreeSet::new();
    let mut level = BTreeSet::from([root]);
    let mut height = 0;
    while !level.is_empty() {
        height += 1;
        tree.extend(level.iter().copied());
        level = level.iter().flat_map(children).collect();
    }
    [tree.len() as u64, height]
}

/// The tree check of a hull's table and root, with its marks and refusals: the hull with the number
/// of nodes in the root's tree and the tree's height; a box's keeps zeros. The other words are the
/// hull's as it is read: a float's low 32 bits, any NaN as one.
pub fn hull_check(map: &Map, hull: &[u64], marks: &mut [u8]) -> Answer<Vec<u64>> {
    let table = u32::try_from(hull[0]).map_err(|_| 20u32)?;
    check(map, table, hull[1], marks)?;
    let floats = hull[3..9].iter().map(|word| float_word(f32::from_bits(*word as u32)));
    let mut out: Vec<u64> = hull[..3].iter().copied().chain(floats).collect();
    out.extend(if table == 2 { UNKNOWN_SIZE } else { size(map, table, hull[1]) });
    Ok(out)
}

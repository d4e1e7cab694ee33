//! Note 11 of document 02: the nodes of a root's tree in walking order, in a lent table of i32, and
//! contents and traces taken from such a table.

use super::plane::Vector;
use super::records::Child;
use super::tree;
use super::walk::{self, Nodes, Table, Trace, Walked};
use super::*;

struct Ordering<'a> {
    nodes: Nodes<'a>,
    rows: Vec<[i32; 3]>,
}

impl Ordering<'_> {
    /// The node and the whole part below it: its own row, then the front part, then the back part.
    /// Its place in the table.
    fn node(&mut self, at: u64) -> Answer<i32> {
        let node = self.nodes.node(at)?;
        let place = self.rows.len();
        self.rows.push([node.plane as i32, 0, 0]);
        for (side, child) in node.children.into_iter().enumerate() {
            self.rows[place][1 + side] = match child {
                Child::Node(next) => self.node(next)?,
                end => -(self.nodes.end(end)? as i32),
            };
        }
        Ok(place as i32)
    }
}

/// The tree check of the root with its marks and refusals; then 23 for a render leaf's record; then
/// 22 for a short table; then the rows, and their number.
pub fn order(map: &Map, table: u32, root: u64, marks: &mut [u8], list: &mut [i32]) -> Answer<u64> {
    let nodes = match table {
        0 => Table::Render,
        1 => Table::Clip,
        _ => return Err(20),
    };
    tree::check(map, table, root, marks)?;
    let nodes = Nodes { map, table: nodes, ends_at_leaf: false, rows: None };
    let mut ordering = Ordering { nodes, rows: Vec::new() };
    ordering.node(root)?;
    let words = ordering.rows.concat();
    if words.len() > list.len() {
        return Err(22);
    }
    list[..words.len()].copy_from_slice(&words);
    Ok(ordering.rows.len() as u64)
}

/// The contents at a point by a lent table, whose planes are the file's, from a place on.
pub fn contents(map: &Map, list: &[i32], root: u64, p: Vector) -> Walked<u64> {
    walk::walk(&lent(map, list), root, p)
}

/// A trace in the same way.
pub fn trace(
    map: &Map,
    list: &[i32],
    root: u64,
    ends: [Vector; 2],
    patience: usize,
) -> Walked<Trace> {
    walk::trace_in(lent(map, list), root, ends, patience)
}

fn lent<'a>(map: &'a Map<'a>, list: &'a [i32]) -> Nodes<'a> {
    Nodes { map, table: Table::Clip, ends_at_leaf: false, rows: Some(list) }
}

//! The nodes below a root, walked as the tree check walks them: to say where it refused, and which way
//! down is the longest. The numbers are the library's; this only finds the place that belongs to them.

use crate::map::{table_name, Map};
use bsp29::{ClipChild, Contents, NodeTable, Refusal, RenderChild};
use std::fmt;

/// The deepest that a tree may be.
const DEEPEST: usize = 512;

/// What a node has on a side.
#[derive(Copy, Clone, Debug, PartialEq, Eq)]
pub enum Child {
    Node(usize),
    Leaf(usize),
    Contents(Contents),
}

impl fmt::Display for Child {
    fn fmt(&self, f: &mut fmt::Formatter<'_>) -> fmt::Result {
        match self {
            Child::Node(node) => write!(f, "node {node}"),
            Child::Leaf(leaf) => write!(f, "leaf {leaf}"),
            Child::Contents(contents) => write!(f, "{contents}"),
        }
    }
}

/// A node of either table.
#[derive(Copy, Clone, Debug, PartialEq, Eq)]
pub struct Node {
    pub plane: usize,
    pub front: Child,
    pub back: Child,
}

/// How many nodes a table of the file has.
pub fn node_count(map: &Map<'_>, table: NodeTable) -> usize {
    match table {
        NodeTable::Render => map.render_nodes().len(),
        NodeTable::Clip => map.clip_nodes().len(),
        NodeTable::Box => 0,
    }
}

/// A node of a table of the file.
pub fn node(map: &Map<'_>, table: NodeTable, index: usize) -> Result<Node, Refusal> {
    let render = |child: RenderChild| match child {
        RenderChild::Node(node) => Child::Node(node),
        RenderChild::Leaf(leaf) => Child::Leaf(leaf),
    };
    let clip = |child: ClipChild| match child {
        ClipChild::Node(node) => Child::Node(node),
        ClipChild::Contents(contents) => Child::Contents(contents),
    };
    match table {
        NodeTable::Render => map.render_nodes().get(index).map(|node| Node {
            plane: node.plane,
            front: render(node.front),
            back: render(node.back),
        }),
        _ => map.clip_nodes().get(index).map(|node| Node {
            plane: node.plane,
            front: clip(node.front),
            back: clip(node.back),
        }),
    }
}

/// The side of a node.
#[derive(Copy, Clone, Debug, PartialEq, Eq)]
pub enum Side {
    Front,
    Back,
}

impl Side {
    /// The field of a node for this side.
    fn field(self) -> &'static str {
        match self {
            Side::Front => "front",
            Side::Back => "back",
        }
    }
}

impl fmt::Display for Side {
    fn fmt(&self, f: &mut fmt::Formatter<'_>) -> fmt::Result {
        f.write_str(self.field())
    }
}

/// How a node was come to: from a node on a side; a root from none.
pub type From = Option<(usize, Side)>;

/// The tree below a root.
pub struct Tree {
    /// The longest way down: its nodes from the root on. The height is their number.
    pub deepest: Vec<usize>,
    /// What it ends at.
    pub end: Child,
}

/// Why the nodes below a root are no tree.
pub struct Bad {
    pub refusal: Refusal,
    /// The node with the fault, and its field: the node that names what it may not name, or the one
    /// that cannot be entered.
    pub node: usize,
    pub field: Option<&'static str>,
    /// The nodes from the root on to that node, in order.
    pub way: Vec<usize>,
    /// What is wrong, in words.
    pub what: String,
}

/// Walks the nodes below a root, front before back.
pub fn walk(map: &Map<'_>, table: NodeTable, root: usize) -> Result<Tree, Bad> {
    let mut walk = Walk::new(map, table);
    walk.left.push((Child::Node(root), None, 1));
    while let Some((child, from, depth)) = walk.left.pop() {
        match child {
            Child::Node(node) => walk.enter(node, from, depth)?,
            end => walk.leave(end, from, depth)?,
        }
    }
    Ok(walk.tree())
}

/// A walk on its way.
struct Walk<'a> {
    map: &'a Map<'a>,
    table: NodeTable,
    /// How each node was reached first; none where it was not yet.
    reached: Vec<Option<From>>,
    /// What is still to be entered, the next one last, each with where it is named and its depth.
    left: Vec<(Child, From, usize)>,
    /// The deepest end so far: its depth in nodes, the node that names it, and the end.
    deepest: (usize, From, Child),
}

impl<'a> Walk<'a> {
    fn new(map: &'a Map<'a>, table: NodeTable) -> Walk<'a> {
        let reached = vec![None; node_count(map, table)];
        let deepest = (0, None, Child::Contents(Contents::Solid));
        Walk { map, table, reached, left: Vec::new(), deepest }
    }

    /// A node: its number, whether it was reached, its depth, its record, its plane.
    fn enter(&mut self, node: usize, from: From, depth: usize) -> Result<(), Bad> {
        match self.reached.get(node) {
            None => return Err(self.outside(node, from)),
            Some(Some(first)) => return Err(self.twice(node, *first, from)),
            Some(None) => {}
        }
        let name = self.name(node);
        self.reached[node] = Some(from);
        if depth > DEEPEST {
            let what = format!("{name} is at depth {depth}, and {DEEPEST} is the deepest");
            return Err(self.at(Refusal::TooDeep, node, None, what));
        }
        let record = crate::trees::node(self.map, self.table, node)
            .map_err(|refusal| self.at(refusal, node, None, format!("{name} cannot be read")))?;
        let (plane, planes) = (record.plane, self.map.planes().len());
        if plane >= planes {
            let what = format!("{name} names plane {plane} of {planes}");
            return Err(self.at(Refusal::IndexOutsideTable, node, Some("plane"), what));
        }
        self.left.push((record.back, Some((node, Side::Back)), depth + 1));
        self.left.push((record.front, Some((node, Side::Front)), depth + 1));
        Ok(())
    }

    /// A leaf, or contents: the end of a way down.
    fn leave(&mut self, end: Child, from: From, depth: usize) -> Result<(), Bad> {
        let leaves = self.map.leaves().len();
        if let (Child::Leaf(leaf), Some((node, side))) = (end, from) {
            if leaf >= leaves {
                let what =
                    format!("{} names leaf {leaf} of {leaves} on its {side}", self.name(node));
                return Err(self.at(Refusal::IndexOutsideTable, node, Some(side.field()), what));
            }
        }
        if depth > self.deepest.0 {
            self.deepest = (depth, from, end);
        }
        Ok(())
    }

    fn tree(self) -> Tree {
        let (_, from, end) = self.deepest;
        Tree { deepest: self.way(from), end }
    }

    fn name(&self, node: usize) -> String {
        format!("{} node {node}", table_name(self.table))
    }

    /// A fault at a node that was reached.
    fn at(&self, refusal: Refusal, node: usize, field: Option<&'static str>, what: String) -> Bad {
        let mut way = self.way(self.reached_by(node));
        way.push(node);
        Bad { refusal, node, field, way, what }
    }

    fn outside(&self, node: usize, from: From) -> Bad {
        let (refusal, count) = (Refusal::IndexOutsideTable, self.reached.len());
        let Some((parent, side)) = from else {
            let what = format!("the root, {}, is not among the {count} nodes", self.name(node));
            return Bad { refusal, node, field: None, way: Vec::new(), what };
        };
        let what = format!("{} names node {node} of {count} on its {side}", self.name(parent));
        self.at(refusal, parent, Some(side.field()), what)
    }

    /// A node that was reached before. A root is reached first, so it is named by a node.
    fn twice(&self, node: usize, first: From, from: From) -> Bad {
        let by = |from: From| match from {
            Some((parent, side)) => format!("the {side} of node {parent}"),
            None => "the root".to_string(),
        };
        let name = self.name(node);
        let what = match self.way(from).iter().rev().position(|entered| *entered == node) {
            Some(back) => {
                format!("{name} is below itself: a loop of {} by {}", nodes(back + 1), by(from))
            }
            None => format!("{name} is reached by {} and by {}", by(first), by(from)),
        };
        let (parent, field) =
            from.map_or((node, None), |(parent, side)| (parent, Some(side.field())));
        self.at(Refusal::ReachedTwice, parent, field, what)
    }

    fn reached_by(&self, node: usize) -> From {
        self.reached.get(node).copied().flatten().flatten()
    }

    /// The nodes from the root on to one that names a child.
    fn way(&self, from: From) -> Vec<usize> {
        let mut way = Vec::new();
        let mut from = from;
        while let Some((node, _)) = from {
            way.push(node);
            from = self.reached_by(node);
        }
        way.reverse();
        way
    }
}

/// So many nodes, in words.
pub fn nodes(count: usize) -> String {
    match count {
        1 => "1 node".to_string(),
        _ => format!("{count} nodes"),
    }
}

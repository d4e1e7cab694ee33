//! Hulls: point contents and traces with the nodes entered, on a map's tables, a box, or tables
//! made by hand.

use crate::{
    common::bsp::{access, BspCollisionHull, BspCollisionNodeChild},
    plane::{point, vector},
    probe,
    refusal::{catch, Caught},
    Plane, Point, Refusal, Trace,
};

/// An answer and the nodes entered on the way to it, in order. A refused walk or trace has entered
/// those before the refusal.
#[derive(Clone, Debug, PartialEq)]
pub struct Answer<T> {
    pub value: Result<T, Refusal>,
    pub nodes: Vec<usize>,
}

impl<T> Answer<T> {
    pub(crate) fn of(f: impl FnOnce() -> T) -> Answer<T> {
        probe::begin();
        let value = catch(f).map_err(Caught::of_walk);
        Answer { value, nodes: probe::nodes() }
    }
}

/// A child of a collision node: a node, or a contents code.
#[derive(Copy, Clone, Debug, Eq, PartialEq)]
pub enum Child {
    Node(usize),
    Contents(u32),
}

/// A collision node.
#[derive(Copy, Clone, Debug, Eq, PartialEq)]
pub struct Node {
    pub plane: usize,
    pub children: [Child; 2],
}

#[derive(Debug)]
pub struct Hull {
    inner: BspCollisionHull,
}

impl Hull {
    /// `BspCollisionHull::for_bounds`.
    pub fn for_bounds(mins: Point, maxs: Point) -> Result<Hull, Refusal> {
        match BspCollisionHull::for_bounds(vector(mins), vector(maxs)) {
            Ok(inner) => Ok(Hull { inner }),
            Err(_) => Err(Refusal::Number(21)),
        }
    }

    /// Tables made by hand. The planes hold exactly their parts. Contents codes must be ones that
    /// exist.
    pub fn by_hand(planes: &[Plane], nodes: &[Node], root: usize) -> Hull {
        let child = |c: Child| match c {
            Child::Node(n) => BspCollisionNodeChild::Node(n),
            Child::Contents(code) => {
                BspCollisionNodeChild::Contents(access::contents(code).expect("a contents code"))
            }
        };
        let planes = planes.iter().map(|p| p.inner()).collect();
        let nodes =
            nodes.iter().map(|n| (n.plane, [child(n.children[0]), child(n.children[1])])).collect();
        Hull { inner: access::hull(planes, nodes, root) }
    }

    pub(crate) fn of(inner: BspCollisionHull) -> Hull {
        Hull { inner }
    }

    /// The same tables from another root.
    pub fn with_root(&self, root: usize) -> Hull {
        Hull { inner: access::with_root(&self.inner, root) }
    }

    pub fn root(&self) -> usize {
        access::root(&self.inner)
    }

    pub fn node_count(&self) -> usize {
        access::node_count(&self.inner)
    }

    pub fn mins(&self) -> Point {
        point(self.inner.min())
    }

    pub fn maxs(&self) -> Point {
        point(self.inner.max())
    }

    pub fn planes(&self) -> Vec<Plane> {
        access::planes(&self.inner).iter().map(Plane::of).collect()
    }

    pub fn nodes(&self) -> Vec<Node> {
        let child = |c: &BspCollisionNodeChild| match c {
            BspCollisionNodeChild::Node(n) => Child::Node(*n),
            BspCollisionNodeChild::Contents(c) => Child::Contents(*c as u32),
        };
        access::nodes(&self.inner)
            .map(|(plane, children)| Node {
                plane,
                children: [child(&children[0]), child(&children[1])],
            })
            .collect()
    }

    /// `contents_at_point`: the contents code.
    pub fn contents_at_point(&self, p: Point) -> Answer<u32> {
        Answer::of(|| {
            self.inner.contents_at_point(vector(p)).expect("a point walk gives no error") as u32
        })
    }

    /// `trace`.
    pub fn trace(&self, start: Point, end: Point) -> Answer<Trace> {
        Answer::of(|| {
            Trace::of(
                &self.inner.trace(vector(start), vector(end)).expect("a trace gives no error"),
            )
        })
    }

    /// `contents_at_point` with nothing caught or noted, for timing.
    pub fn bare_contents(&self, p: Point) -> u32 {
        self.inner.contents_at_point(vector(p)).expect("a point walk gives no error") as u32
    }

    /// `trace` with nothing caught or noted, for timing.
    pub fn bare_trace(&self, start: Point, end: Point) -> crate::server::world::phys::Trace {
        self.inner.trace(vector(start), vector(end)).expect("a trace gives no error")
    }
}

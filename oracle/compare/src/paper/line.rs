//! Note 6 of document 02: the whole-line trace, by the published rule of id Software's `world.c`
//! (its recursive hull check and its point contents), with what the note says of NaN, of the
//! starting values and of refusals. Every operation is f32.

use super::fields::float_word;
use super::plane::{Plane, Vector};
use super::records::Child;
use super::walk::{Hull, Nodes, GAVE_UP};
use super::*;

/// The calls that a descent may have open at once.
const DEPTH: usize = 512;

/// How far the crossing is moved towards the near side.
const EPSILON: f32 = 0.03125;

/// The length of a step back from an impact.
const STEP: f32 = 0.1;

const EMPTY: u64 = 1;
const SOLID: u64 = 2;

/// What a whole-line trace answers.
#[derive(Clone, Debug)]
pub struct Line {
    pub fraction: f32,
    pub end: Vector,
    pub normal: Vector,
    pub dist: f32,
    pub all_solid: bool,
    pub start_solid: bool,
    pub in_open: bool,
    pub in_water: bool,
}

impl Line {
    /// The twelve words of an answer.
    pub fn words(&self) -> Vec<u64> {
        let mut out = vec![float_word(self.fraction)];
        out.extend(self.end.map(float_word));
        out.extend(self.normal.map(float_word));
        out.push(float_word(self.dist));
        let flags = [self.all_solid, self.start_solid, self.in_open, self.in_water];
        out.extend(flags.map(|flag| flag as u64));
        out
    }
}

/// A part of the line: the fractions at its ends, and the ends.
#[derive(Copy, Clone)]
struct Part {
    p1f: f32,
    p2f: f32,
    p1: Vector,
    p2: Vector,
}

impl Part {
    /// The fraction and the point at `frac` of this part.
    fn at(&self, frac: f32) -> (f32, Vector) {
        let mid = [0, 1, 2].map(|n| self.p1[n] + frac * (self.p2[n] - self.p1[n]));
        (self.p1f + (self.p2f - self.p1f) * frac, mid)
    }
}

/// 0 is the front; a NaN distance is below 0.
fn side(dist: f32) -> usize {
    if dist >= 0.0 {
        0
    } else {
        1
    }
}

struct Checking<'a> {
    nodes: Nodes<'a>,
    root: u64,
    line: Line,
    /// Nodes that may still be met, before the comparison gives up.
    patience: usize,
}

impl Checking<'_> {
    /// The children and the plane of a node that is met with so many calls left.
    fn node(&mut self, at: u64, left: usize) -> Answer<([Child; 2], Plane)> {
        if at >= self.nodes.count() {
            return Err(30);
        }
        if left == 0 {
            return Err(32);
        }
        if self.patience == 0 {
            return Err(GAVE_UP);
        }
        self.patience -= 1;
        let node = self.nodes.node(at)?;
        Ok((node.children, self.nodes.plane(node.plane)?))
    }

    /// The contents at a point, looked up from a child that is its own top.
    fn contents(&mut self, top: Child, p: Vector) -> Answer<u64> {
        let mut child = top;
        for left in (0..=DEPTH).rev() {
            let Child::Node(at) = child else { break };
            let (children, plane) = self.node(at, left)?;
            child = children[side(plane.point_dist(p))];
        }
        self.nodes.end(child)
    }

    /// The recursive hull check: whether tracing may go on.
    #[allow(clippy::manual_clamp)] // as the published text has it
    fn check(&mut self, child: Child, left: usize, part: Part) -> Answer<bool> {
        let Child::Node(at) = child else { return self.meet(child) };
        let (children, plane) = self.node(at, left)?;
        let (t1, t2) = (plane.point_dist(part.p1), plane.point_dist(part.p2));
        let near = side(t1);
        if near == side(t2) {
            return self.check(children[near], left - 1, part);
        }
        let moved = if near == 1 { t1 + EPSILON } else { t1 - EPSILON };
        let mut frac = moved / (t1 - t2);
        if frac < 0.0 {
            frac = 0.0;
        }
        if frac > 1.0 {
            frac = 1.0;
        }
        let (midf, mid) = part.at(frac);
        if !self.check(children[near], left - 1, Part { p2f: midf, p2: mid, ..part })? {
            return Ok(false);
        }
        if self.contents(children[1 - near], mid)? != SOLID {
            return self.check(children[1 - near], left - 1, Part { p1f: midf, p1: mid, ..part });
        }
        if self.line.all_solid {
            return Ok(false);
        }
        (self.line.normal, self.line.dist) = match near {
            0 => (plane.normal(), plane.dist),
            _ => (plane.normal().map(|x| 0.0 - x), 0.0 - plane.dist),
        };
        self.back_off(part, frac)?;
        Ok(false)
    }

    /// An end of the tree: what it sets, and that tracing may go on.
    fn meet(&mut self, child: Child) -> Answer<bool> {
        match self.nodes.end(child)? {
            SOLID => self.line.start_solid = true,
            contents => {
                self.line.all_solid = false;
                match contents {
                    EMPTY => self.line.in_open = true,
                    _ => self.line.in_water = true,
                }
            }
        }
        Ok(true)
    }

    /// The impact, backed off until it lies in no solid.
    fn back_off(&mut self, part: Part, mut frac: f32) -> Answer<()> {
        let (mut midf, mut mid) = part.at(frac);
        while self.contents(Child::Node(self.root), mid)? == SOLID {
            frac -= STEP;
            if frac.is_nan() || frac < 0.0 {
                break;
            }
            (midf, mid) = part.at(frac);
        }
        (self.line.fraction, self.line.end) = (midf, mid);
        Ok(())
    }
}

/// The whole line from start to end, given up after `patience` nodes.
pub fn trace_line(
    map: &Map,
    hull: &Hull,
    start: Vector,
    end: Vector,
    patience: usize,
) -> Answer<Line> {
    let line = Line {
        fraction: 1.0,
        end,
        normal: [0.0; 3],
        dist: 0.0,
        all_solid: true,
        start_solid: false,
        in_open: false,
        in_water: false,
    };
    let nodes = Nodes { map, table: hull.table, ends_at_leaf: false, rows: None };
    let mut checking = Checking { nodes, root: hull.root, line, patience };
    let whole = Part { p1f: 0.0, p2f: 1.0, p1: start, p2: end };
    checking.check(Child::Node(hull.root), DEPTH, whole)?;
    Ok(checking.line)
}

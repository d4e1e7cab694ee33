//! Planes as plain data, and what math.rs answers about them. No function is inlined into the
//! comparison, so that the compiler knows nothing of what becomes of its answer.

use cgmath::{InnerSpace, Vector3};

use crate::{
    common::math::{access, Hyperplane, HyperplaneSide, LinePlaneIntersect},
    Point,
};

/// A plane: kinds 0, 1 and 2 are axis planes, 3 holds the normal.
#[derive(Copy, Clone, Debug, PartialEq)]
pub struct Plane {
    pub kind: u32,
    /// `normal()` of the published code.
    pub normal: Point,
    pub dist: f32,
}

/// What a segment does at a plane. Side 0 is Positive, 1 Negative.
#[derive(Copy, Clone, Debug, PartialEq)]
pub enum Crossing {
    None { side: u32 },
    Point { ratio: f32, point: Point, plane: Plane },
}

pub fn vector(p: Point) -> Vector3<f32> {
    Vector3::from(p)
}

pub fn point(v: Vector3<f32>) -> Point {
    [v.x, v.y, v.z]
}

impl Plane {
    /// A plane that holds exactly these parts; the normal of an axis plane is not looked at.
    pub fn held(kind: u32, normal: Point, dist: f32) -> Plane {
        Plane::of(&access::plane(kind, normal, dist))
    }

    /// `Hyperplane::axis_x`, `axis_y` or `axis_z`; any other axis counts as z.
    #[inline(never)]
    pub fn axis(axis: u32, dist: f32) -> Plane {
        Plane::of(&match axis {
            0 => Hyperplane::axis_x(dist),
            1 => Hyperplane::axis_y(dist),
            _ => Hyperplane::axis_z(dist),
        })
    }

    /// `Hyperplane::new`.
    #[inline(never)]
    pub fn new(normal: Point, dist: f32) -> Plane {
        Plane::of(&Hyperplane::new(vector(normal), dist))
    }

    /// `Hyperplane::from_normal`.
    #[inline(never)]
    pub fn from_normal(normal: Point, dist: f32) -> Plane {
        Plane::of(&Hyperplane::from_normal(vector(normal), dist))
    }

    pub fn of(plane: &Hyperplane) -> Plane {
        Plane {
            kind: access::kind(plane),
            normal: point(plane.normal()),
            dist: access::dist(plane),
        }
    }

    pub fn inner(self) -> Hyperplane {
        access::plane(self.kind, self.normal, self.dist)
    }

    #[inline(never)]
    pub fn negate(self) -> Plane {
        Plane::of(&-self.inner())
    }

    #[inline(never)]
    pub fn point_dist(self, p: Point) -> f32 {
        self.inner().point_dist(vector(p))
    }

    #[inline(never)]
    pub fn point_side(self, p: Point) -> u32 {
        side(self.inner().point_side(vector(p)))
    }

    /// `line_segment_intersection`.
    #[inline(never)]
    pub fn crossing(self, start: Point, end: Point) -> Crossing {
        match self.inner().line_segment_intersection(vector(start), vector(end)) {
            LinePlaneIntersect::NoIntersection(s) => Crossing::None { side: side(s) },
            LinePlaneIntersect::PointIntersection(i) => Crossing::Point {
                ratio: i.ratio(),
                point: point(i.point()),
                plane: Plane::of(i.plane()),
            },
        }
    }
}

fn side(side: HyperplaneSide) -> u32 {
    side as u32
}

#[inline(never)]
pub fn add(a: Point, b: Point) -> Point {
    point(vector(a) + vector(b))
}

#[inline(never)]
pub fn sub(a: Point, b: Point) -> Point {
    point(vector(a) - vector(b))
}

#[inline(never)]
pub fn scale(k: f32, v: Point) -> Point {
    point(k * vector(v))
}

#[inline(never)]
pub fn negate(v: Point) -> Point {
    point(-vector(v))
}

#[inline(never)]
pub fn normalize(v: Point) -> Point {
    point(vector(v).normalize())
}

#[inline(never)]
pub fn dot(a: Point, b: Point) -> f32 {
    vector(a).dot(vector(b))
}

#[inline(never)]
pub fn magnitude(v: Point) -> f32 {
    vector(v).magnitude()
}

#[inline(never)]
pub fn equals(a: Point, b: Point) -> bool {
    vector(a) == vector(b)
}

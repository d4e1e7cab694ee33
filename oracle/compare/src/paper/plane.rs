//! Vectors and planes. Every operation rounds once, sums run from left to right.

pub type Vector = [f32; 3];

pub fn dot(a: Vector, b: Vector) -> f32 {
    a[0] * b[0] + a[1] * b[1] + a[2] * b[2]
}

pub fn scaled(k: f32, v: Vector) -> Vector {
    [k * v[0], k * v[1], k * v[2]]
}

/// Multiplied by 1 / root.
pub fn normalized(v: Vector) -> Vector {
    scaled(1.0 / dot(v, v).sqrt(), v)
}

/// Equal as floats: -0 equals 0, a NaN equals nothing.
pub fn same(a: Vector, b: Vector) -> bool {
    a[0] == b[0] && a[1] == b[1] && a[2] == b[2]
}

#[derive(Copy, Clone, Debug)]
pub enum Alignment {
    Axis(usize),
    Normal(Vector),
}

#[derive(Copy, Clone, Debug)]
pub struct Plane {
    pub alignment: Alignment,
    pub dist: f32,
}

/// What a segment does at a plane: it stays on a side (0 positive, 1 negative), or crosses.
pub enum Crossing {
    Stays(usize),
    At { ratio: f32, point: Vector },
}

impl Plane {
    pub fn axis(axis: usize, dist: f32) -> Plane {
        Plane { alignment: Alignment::Axis(axis), dist }
    }

    /// Exact unit normals become axis planes, others are normalised twice.
    pub fn new(normal: Vector, dist: f32) -> Plane {
        for axis in 0..3 {
            let mut unit = [0.0; 3];
            unit[axis] = 1.0;
            if same(normal, unit) {
                return Plane::axis(axis, dist);
            }
        }
        Plane { alignment: Alignment::Normal(normalized(normalized(normal))), dist }
    }

    /// Of a file: types 0, 1 and 2 ignore the normal.
    pub fn of_file(normal: Vector, dist: f32, kind: i32) -> Plane {
        match kind {
            0..=2 => Plane::axis(kind as usize, dist),
            _ => Plane::new(normal, dist),
        }
    }

    pub fn kind(&self) -> u64 {
        match self.alignment {
            Alignment::Axis(axis) => axis as u64,
            Alignment::Normal(_) => 3,
        }
    }

    pub fn normal(&self) -> Vector {
        match self.alignment {
            Alignment::Axis(axis) => {
                let mut unit = [0.0; 3];
                unit[axis] = 1.0;
                unit
            }
            Alignment::Normal(normal) => normal,
        }
    }

    pub fn negated(&self) -> Plane {
        let normal = match self.alignment {
            Alignment::Axis(axis) => {
                let mut normal = [0.0; 3];
                normal[axis] = -1.0;
                normal
            }
            Alignment::Normal(n) => [-n[0], -n[1], -n[2]],
        };
        Plane::new(normal, -self.dist)
    }

    pub fn point_dist(&self, p: Vector) -> f32 {
        match self.alignment {
            Alignment::Axis(axis) => p[axis] - self.dist,
            Alignment::Normal(normal) => dot(p, normal) - self.dist,
        }
    }

    /// p >= dist on an axis, else dot - dist >= 0.
    pub fn point_side(&self, p: Vector) -> usize {
        let positive = match self.alignment {
            Alignment::Axis(axis) => p[axis] >= self.dist,
            Alignment::Normal(normal) => dot(p, normal) - self.dist >= 0.0,
        };
        if positive {
            0
        } else {
            1
        }
    }

    pub fn crossing(&self, start: Vector, end: Vector) -> Crossing {
        let (from, to) = (self.point_dist(start), self.point_dist(end));
        let side = side_of_dist(from);
        if side == side_of_dist(to) {
            return Crossing::Stays(side);
        }
        let ratio = from / (from - to);
        let mut point = start;
        for part in 0..3 {
            point[part] = start[part] + ratio * (end[part] - start[part]);
        }
        Crossing::At { ratio, point }
    }
}

/// Negative for NaN.
fn side_of_dist(dist: f32) -> usize {
    if dist >= 0.0 {
        0
    } else {
        1
    }
}

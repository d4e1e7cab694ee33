//! Seeded vectors, planes and points, with special floats in every place.

pub use crate::floats::{float, half, normal, nudged, CORE, SPECIAL};
pub use crate::Seed;

pub type Vector = [f32; 3];

/// A plane as it is passed: kind, normal, dist.
#[derive(Copy, Clone, Debug)]
pub struct PlaneCase {
    pub kind: u32,
    pub normal: Vector,
    pub dist: f32,
}

pub fn vector(seed: &mut Seed) -> Vector {
    match seed.below(4) {
        // all of one kind, so that sums do not drown in one part
        0 => {
            let size = 2.0f32.powi(seed.below(250) as i32 - 125);
            [half(seed) * size, half(seed) * size, half(seed) * size]
        }
        1 => normal(seed),
        _ => [float(seed), float(seed), float(seed)],
    }
}

pub fn plane(seed: &mut Seed) -> PlaneCase {
    PlaneCase {
        // beyond 3 too: every kind but 0, 1 and 2 holds its normal
        kind: match seed.below(16) {
            15 => seed.next() as u32,
            n => (n % 5) as u32,
        },
        normal: normal(seed),
        dist: float(seed),
    }
}

/// A point that may lie on the plane or share its infinity.
pub fn point(seed: &mut Seed, plane: &PlaneCase) -> Vector {
    let mut p = vector(seed);
    match seed.below(6) {
        0 => p[seed.below(3) as usize] = plane.dist,
        1 => p = [plane.dist; 3],
        2 => {
            let n = plane.normal;
            p = [n[0] * plane.dist, n[1] * plane.dist, n[2] * plane.dist];
        }
        3 => p[seed.below(3) as usize] = nudged(seed, plane.dist, 2),
        _ => {}
    }
    p
}

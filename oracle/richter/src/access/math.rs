//! Inside math.rs: planes by their parts.

use super::{Alignment, Axis, Hyperplane};
use cgmath::Vector3;

/// Kinds 0, 1 and 2 are axis planes; any other holds exactly this normal.
pub fn plane(kind: u32, normal: [f32; 3], dist: f32) -> Hyperplane {
    let alignment = match kind {
        0 => Alignment::Axis(Axis::X),
        1 => Alignment::Axis(Axis::Y),
        2 => Alignment::Axis(Axis::Z),
        _ => Alignment::Normal(Vector3::from(normal)),
    };
    Hyperplane { alignment, dist }
}

/// 0, 1 or 2 for an axis plane, else 3.
pub fn kind(plane: &Hyperplane) -> u32 {
    match plane.alignment {
        Alignment::Axis(Axis::X) => 0,
        Alignment::Axis(Axis::Y) => 1,
        Alignment::Axis(Axis::Z) => 2,
        Alignment::Normal(_) => 3,
    }
}

pub fn dist(plane: &Hyperplane) -> f32 {
    plane.dist
}

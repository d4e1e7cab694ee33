//! Points and segments to ask a map about.

use crate::{floats, record::Plane, Seed};

/// A point: as a map has it, on or next to a plane's distance, or of special floats.
pub fn point(seed: &mut Seed, planes: &[Plane]) -> [f32; 3] {
    let mut p =
        [floats::coordinate(seed, 0), floats::coordinate(seed, 0), floats::coordinate(seed, 0)];
    match seed.below(8) {
        0 => p[seed.below(3) as usize] = floats::float(seed),
        1 => p = [floats::float(seed), floats::float(seed), floats::float(seed)],
        2 | 3 if !planes.is_empty() => {
            let plane = planes[seed.below(planes.len() as u64) as usize];
            let at = match plane.kind {
                0..=2 => plane.kind as usize,
                _ => seed.below(3) as usize,
            };
            p[at] = plane.dist;
            if seed.once_in(3) {
                p[at] = floats::nudged(seed, plane.dist, 2);
            }
        }
        _ => {}
    }
    p
}

/// Two points: anywhere, near each other, along one axis, or the same.
pub fn segment(seed: &mut Seed, planes: &[Plane]) -> ([f32; 3], [f32; 3]) {
    let start = point(seed, planes);
    let mut end = start;
    match seed.below(8) {
        0 => {}
        1 | 2 => {
            for part in end.iter_mut() {
                *part += floats::half(seed) * 20.0;
            }
        }
        3 => {
            let at = seed.below(3) as usize;
            end[at] = point(seed, planes)[at];
        }
        _ => end = point(seed, planes),
    }
    (start, end)
}

//! Inside phys.rs: traces by their parts.

use super::{Trace, TraceEnd, TraceStart};
use crate::common::bsp::BspLeafContents;
use cgmath::Vector3;

pub struct Parts {
    pub start: Vector3<f32>,
    pub start_ratio: f32,
    pub end: TraceEnd,
    pub contents: BspLeafContents,
    pub start_solid: bool,
}

pub fn parts(trace: &Trace) -> Parts {
    Parts {
        start: trace.start.point,
        start_ratio: trace.start.ratio,
        end: trace.end.clone(),
        contents: trace.contents,
        start_solid: trace.start_solid,
    }
}

pub fn end_point(end: &TraceEnd) -> Vector3<f32> {
    end.point
}

/// A trace with these parts, whatever `Trace::new` would make of the start.
pub fn trace(parts: Parts) -> Trace {
    Trace {
        start: TraceStart { point: parts.start, ratio: parts.start_ratio },
        end: parts.end,
        contents: parts.contents,
        start_solid: parts.start_solid,
    }
}

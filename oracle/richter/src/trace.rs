//! Traces as plain data, and what phys.rs answers about them. Its functions are not inlined into the
//! comparison, as those of plane.rs.

use crate::{
    common::bsp,
    plane::{point, vector},
    refusal::{catch, Caught},
    server::world::phys::{self, access, TraceEndKind},
    Plane, Point, Refusal,
};

#[derive(Copy, Clone, Debug, PartialEq)]
pub struct Trace {
    pub start: Point,
    pub start_ratio: f32,
    pub end: Point,
    /// Ratio and plane of a boundary; none for a terminal end.
    pub boundary: Option<(f32, Plane)>,
    /// Contents code, 1 to 14.
    pub contents: u32,
    pub start_solid: bool,
}

impl Trace {
    /// `Trace::new` over `TraceStart::new` and `TraceEnd::terminal` or `TraceEnd::boundary`. None if
    /// the code names no contents.
    pub fn new(
        start: Point,
        start_ratio: f32,
        end: Point,
        boundary: Option<(f32, Plane)>,
        contents: u32,
    ) -> Option<Trace> {
        let contents = bsp::access::contents(contents)?;
        let start = phys::TraceStart::new(vector(start), start_ratio);
        let trace = phys::Trace::new(start, trace_end(end, boundary), contents);
        Some(Trace::of(&trace))
    }

    pub fn of(trace: &phys::Trace) -> Trace {
        let parts = access::parts(trace);
        Trace {
            start: point(parts.start),
            start_ratio: parts.start_ratio,
            end: point(access::end_point(&parts.end)),
            boundary: match parts.end.kind() {
                TraceEndKind::Terminal => None,
                TraceEndKind::Boundary(b) => Some((b.ratio, Plane::of(&b.plane))),
            },
            contents: parts.contents as u32,
            start_solid: parts.start_solid,
        }
    }

    pub fn inner(self) -> phys::Trace {
        access::trace(access::Parts {
            start: vector(self.start),
            start_ratio: self.start_ratio,
            end: trace_end(self.end, self.boundary),
            contents: bsp::access::contents(self.contents).expect("a contents code"),
            start_solid: self.start_solid,
        })
    }

    #[inline(never)]
    pub fn join(self, other: Trace) -> Result<Trace, Refusal> {
        catch(|| Trace::of(&self.inner().join(other.inner()))).map_err(Caught::of_join)
    }

    #[inline(never)]
    pub fn adjust(self, offset: Point) -> Trace {
        Trace::of(&self.inner().adjust(vector(offset)))
    }

    #[inline(never)]
    pub fn start_point(self) -> Point {
        point(self.inner().start_point())
    }

    #[inline(never)]
    pub fn end_point(self) -> Point {
        point(self.inner().end_point())
    }

    #[inline(never)]
    pub fn ratio(self) -> f32 {
        self.inner().ratio()
    }

    #[inline(never)]
    pub fn is_terminal(self) -> bool {
        self.inner().is_terminal()
    }

    #[inline(never)]
    pub fn all_solid(self) -> bool {
        self.inner().all_solid()
    }

    #[inline(never)]
    pub fn start_solid(self) -> bool {
        self.inner().start_solid()
    }

    #[inline(never)]
    pub fn in_open(self) -> bool {
        self.inner().in_open()
    }

    #[inline(never)]
    pub fn in_water(self) -> bool {
        self.inner().in_water()
    }
}

fn trace_end(end: Point, boundary: Option<(f32, Plane)>) -> phys::TraceEnd {
    match boundary {
        None => phys::TraceEnd::terminal(vector(end)),
        Some((ratio, plane)) => phys::TraceEnd::boundary(vector(end), ratio, plane.inner()),
    }
}

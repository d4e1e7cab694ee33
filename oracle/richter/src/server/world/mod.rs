//! The names of phys.rs that the map code takes from here.

pub mod phys;

pub use self::phys::{Trace, TraceEnd, TraceEndBoundary, TraceEndKind, TraceStart};

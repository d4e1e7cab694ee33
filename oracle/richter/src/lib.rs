//! The answers of the published Rust, for comparison.
//!
//! `common/` and `server/` hold the six published files at their paths, unchanged but for whole
//! lines that end in the marker `// oracle` (`oracle/check-published` strips those and compares the
//! sums in `oracle/published.sha256`), and stand-ins for the modules that they name and that are
//! not published here. The rest is ours:
//!
//! - `probe`: what the marked lines call (nodes entered, bounds on walks, the texture section)
//! - `access/`: modules inside the published ones, which reach their private fields
//! - `refusal`: document 01's numbers for errors and panics
//! - `map`, `hull`, `plane`, `trace`: the answers as plain data
//! - `room`: memory for sizes that a small file can name

#![allow(clippy::all)]

#[macro_use]
extern crate bitflags;
#[macro_use]
extern crate failure;
#[macro_use]
extern crate lazy_static;
#[macro_use]
extern crate log;
#[macro_use]
extern crate num_derive;

#[allow(warnings)]
pub mod common;
#[allow(warnings)]
pub mod server;

pub mod hull;
pub mod map;
pub mod plane;
pub mod probe;
pub mod refusal;
pub mod room;
pub mod trace;

pub use hull::{Answer, Child, Hull, Node};
pub use map::{load, load_without_textures, Map};
pub use plane::{Crossing, Plane};
pub use refusal::Refusal;
pub use trace::Trace;

/// Three floats.
pub type Point = [f32; 3];

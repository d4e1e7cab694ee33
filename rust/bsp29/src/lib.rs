//! BSP29 maps that strangers send: what lies at a point, which leaf it is in, what can be seen from
//! there and what a moving point meets.
//!
//! A safe crate over the static library of this repository, whose code is proved: whatever the bytes,
//! the numbers or the floats, each call answers or refuses ([`Refusal`]); none crashes, hangs or reads
//! outside the file. The crate `bsp29-sys` below this one finds the library: the one that
//! `rt lib` in crates/ffi has made, or the file that the environment variable `BSP29_LIBRARY` names.
//!
//! Every NaN that a call answers is the same one, 0x7fc00000.
//!
//! ```
//! use bsp29::{Contents, Map, TraceEnd};
//!
//! let path = concat!(env!("CARGO_MANIFEST_DIR"), "/../../maps/rooms.bsp");
//! let file = std::fs::read(path)?;
//! let map = Map::load(&file)?;
//!
//! // before a stranger's map is played
//! map.accept()?;
//!
//! let hull = map.hull(0, 0)?;
//! let (contents, _visits) = map.contents(&hull, [-64.0, 0.0, 0.0])?;
//! assert_eq!(contents, Contents::Empty);
//! let trace = map.trace(&hull, [-64.0, 0.0, 0.0], [-64.0, 0.0, -60.0])?;
//! assert!(matches!(trace.kind, TraceEnd::Boundary { .. }));
//! assert_eq!(trace.end, [-64.0, 0.0, -32.0]);
//! # Ok::<(), Box<dyn std::error::Error>>(())
//! ```
//!
//! Where [`accept`](MapOf::accept) passes on a map that was loaded, contents and traces in every hull of every
//! model, leaf lookups and the visibility of every leaf are answered, whatever the floats, with a leaf count
//! up to the number of leaves. A hull made by hand with another root wants
//! [`tree_check`](MapOf::tree_check) first.
//!
//! - [`Map`], [`MapOf`]: a map over a slice, and over whatever holds bytes, with the questions that it answers
//! - [`Ordered`]: the nodes of a tree in walking order, and walks and traces by them
//! - [`Records`] and the records: planes, leaves, models and the rest, by their index or one after the other
//! - [`Hull`], [`BoxHull`], [`Trace`], [`LineTrace`]: what something moves in, and what it meets
//! - [`BodySizes`]: a hall's own sizes in place of the built-in ones
//! - [`Entities`]: the entity text taken apart
//! - [`made_up`]: maps that nobody drew, for load tests
//! - [`Refusal`], [`load_place`]: why a call is refused, and where in the file loading was
//!
//! Proved are the calls of the library. What this crate adds is plain Rust, and tested: the conversion of
//! words to its types, what richter's `phys.rs` and `math.rs` have of a trace and a plane, faces and models
//! put together from their records, and the parser of the entity text.

#![deny(unsafe_code, missing_docs)]
#![forbid(unsafe_op_in_unsafe_fn)]

#[cfg(not(all(target_arch = "x86_64", target_pointer_width = "64")))]
compile_error!("the library is for x86-64");

mod entities;
mod ffi;
mod hull;
mod made;
mod map;
mod place;
mod records;
mod refusal;
mod section;
mod sizes;
mod surfaces;
mod words;

pub use entities::{Entities, Entity, EntityError, EntityFault};
pub use hull::{BoxHull, Hull, LineTrace, NodeTable, Trace, TraceEnd};
pub use made::{made_up, made_up_into};
pub use map::{Map, MapOf, Ordered};
pub use place::{load_place, LoadPlace};
pub use records::{
    ClipChild, ClipNode, Contents, ContentsSet, Direction, Edge, EdgeListEntry, Face,
    FaceListEntry, FrameGroup, Leaf, Model, Plane, PlaneKind, Record, RecordIter, RecordValues,
    Records, RenderChild, RenderNode, Side, Sounds, Texture, TextureInfo, Vertex,
};
pub use refusal::Refusal;
pub use section::Section;
pub use sizes::{BodySizes, Bounds};
pub use surfaces::Lightmap;

/// The version of this crate, which is that of the header and of the library that it was written for.
///
/// ```
/// assert_eq!(bsp29::VERSION, "0.2.0");
/// ```
pub const VERSION: &str = env!("CARGO_PKG_VERSION");

/// The version of the library that is linked: its three numbers.
///
/// ```
/// let (major, minor, patch) = bsp29::library_version();
/// assert_eq!(bsp29::VERSION, format!("{major}.{minor}.{patch}"));
/// ```
pub fn library_version() -> (u32, u32, u32) {
    let version = ffi::version();
    (version >> 16, version >> 8 & 255, version & 255)
}

//! Map files made from a seed, for the comparisons.
//!
//! - `seed`: numbers that follow from a seed
//! - `floats`: floats with special ones among them; their bits
//! - `cases`: vectors, planes and points with such floats in every place
//! - `record`: the tables of a file, record by record, and the file that holds them
//! - `shape`: node tables: balanced, chain, shared, looping, random
//! - `make`: whole maps with chosen table sizes
//! - `world`: a tree that divides a box evenly, as a map compiler makes it, for timing
//! - `damage`: cut and changed copies
//! - `query`: points and segments
//! - `sky`: contents that the published Rust refuses, put into a map

pub mod cases;
pub mod damage;
pub mod floats;
pub mod make;
pub mod query;
pub mod record;
pub mod seed;
pub mod shape;
pub mod sky;
pub mod world;

pub use make::{make, Plan};
pub use record::{Layout, Tables};
pub use seed::Seed;
pub use shape::Shape;

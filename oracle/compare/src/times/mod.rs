//! Times beside the published Rust: each call on generated maps, the usual calls on compiled maps by the
//! calls for C and by the safe crate, texture sections.

pub mod bench;
mod compiled;
pub mod textures;

//! The published trace types, and stand-ins for what they name.

pub mod progs;
pub mod world;

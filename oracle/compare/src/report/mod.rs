//! What a run says: how many cases of each call ran and differed, and which refusals were met.

pub mod board;
pub mod coverage;

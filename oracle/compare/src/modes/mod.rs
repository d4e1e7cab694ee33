//! The modes of `oracle/run` that compare calls, a file each, and what they share:
//!
//! - `all`: all of them, over and over; `joins` is asked there alone
//! - records and loading: `records`, `hand_made`, `loads`, `place`, `made`, `textures`, `sky`; `queries`
//!   asks everything of a map that loads
//! - nodes: `walks`, `tree` (with `sizes`, the size of a hull's tree), `boxes`, `points`, `line`, `order`
//! - hulls of a hall's own sizes: `bodies`, the mode `sizes`
//! - visibility: `pvs`, `team`
//! - acceptance: `accept`
//! - a sample of the Rust's answers: `sample`, and `replay`, which reads it back
//! - beside other programs: `line_peer`, `real` (bspinfo, whose text `json` reads, and id Software's code)
//! - `wrong`: the tests, with a wrong call in one place

pub mod accept;
pub mod all;
pub mod bodies;
pub mod boxes;
pub mod hand_made;
pub mod joins;
#[cfg_attr(not(feature = "peer"), allow(dead_code))]
pub mod json;
pub mod line;
#[cfg(feature = "peer")]
pub mod line_peer;
pub mod loads;
pub mod made;
pub mod order;
pub mod place;
pub mod points;
pub mod pvs;
pub mod queries;
#[cfg(feature = "peer")]
pub mod real;
pub mod records;
pub mod replay;
pub mod sample;
pub mod sizes;
pub mod sky;
pub mod team;
pub mod textures;
pub mod tree;
pub mod walks;
#[cfg(test)]
mod wrong;

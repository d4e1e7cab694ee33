//! Cases made: maps around a node table, and faults to plant in a map. What every comparison makes its
//! cases of stands in the crate `maps`.

pub mod faults;
pub mod tables;

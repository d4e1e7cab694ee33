//! The published modules, and stand-ins for those that are not published here.

pub mod bsp;
pub mod math;
pub mod mdl;
pub mod model;
pub mod sprite;
pub mod util;
pub mod vfs;

//! richter's names over the crate bsp29, as a library: [`swapped`].

pub mod swapped;

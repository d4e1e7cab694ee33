//! The calls of the C interface (crate ffi), as the crate bsp29-sys declares and links them, over slices.
//!
//! Each call answers 0 or the number of a refusal; what it answers goes into lent lists. `asked` has what a
//! call is asked about, `words` the Rust's answers as the words of a call's.

#![allow(clippy::too_many_arguments)]

pub mod asked;
pub mod words;

use bsp29_sys::*;

pub use bsp29_sys::{HULL_WORDS, LINE_WORDS, RECORD_WORDS, SIZES_WORDS, TRACE_WORDS};

/// The words of a walk's answer.
pub const WALK_WORDS: usize = 2;

/// The words of a hull that a call takes: it does not look at the last two.
pub const HULL_ASKED: usize = 9;

/// The version that is compared: 0.2.0.
pub const VERSION: u32 = 2 * 256;

/// A call with its parameters handed over one by one: a list as its pointer and its length.
macro_rules! handed {
    ($name:ident($($done:expr),*) $(,)?) => {
        unsafe { $name($($done),*) }
    };
    ($name:ident($($done:expr),*) $list:ident: &[$entry:ty], $($rest:tt)*) => {
        handed!($name($($done,)* $list.as_ptr(), $list.len()) $($rest)*)
    };
    ($name:ident($($done:expr),*) $list:ident: &mut [$entry:ty], $($rest:tt)*) => {
        handed!($name($($done,)* $list.as_mut_ptr(), $list.len()) $($rest)*)
    };
    ($name:ident($($done:expr),*) $number:ident: $type:ty, $($rest:tt)*) => {
        handed!($name($($done,)* $number) $($rest)*)
    };
}

macro_rules! calls {
    ($($field:ident = $name:ident($($parameter:tt)*);)*) => {
        /// The calls compared, by pointer, so that a test can put a wrong one in a place.
        #[derive(Copy, Clone)]
        pub struct Calls {
            $(pub $field: fn($($parameter)*) -> u32,)*
        }

        impl Calls {
            pub fn linked() -> Calls {
                Calls { $($field,)* }
            }
        }

        $(pub fn $field($($parameter)*) -> u32 {
            handed!($name() $($parameter)*,)
        })*
    };
}

calls! {
    load = bsp_load(file: &[u8], map: &mut [u32]);
    record = bsp_record(file: &[u8], map: &[u32], section: u32, index: u64, out: &mut [u64]);
    count = bsp_count(map: &[u32], section: u32, out: &mut [u64]);
    entities = bsp_entities(file: &[u8], map: &[u32], out: &mut [u64]);
    hull = bsp_hull(file: &[u8], map: &[u32], model: u64, index: u64, hull: &mut [u64]);
    body_sizes = bsp_body_sizes(bytes: &[u8], sizes: &mut [u64]);
    hull_sized = bsp_hull_sized(file: &[u8], map: &[u32], sizes: &[u64], model: u64, index: u64, hull: &mut [u64]);
    bounds = bsp_box(bounds: &[f32], hull: &mut [u64]);
    contents = bsp_contents(file: &[u8], map: &[u32], hull: &[u64], point: &[f32], out: &mut [u64]);
    find_leaf = bsp_find_leaf(file: &[u8], map: &[u32], root: u64, point: &[f32], out: &mut [u64]);
    trace = bsp_trace(file: &[u8], map: &[u32], hull: &[u64], segment: &[f32], out: &mut [u64]);
    contents_nodes = bsp_contents_nodes(file: &[u8], map: &[u32], hull: &[u64], point: &[f32], list: &mut [u32], out: &mut [u64]);
    find_leaf_nodes = bsp_find_leaf_nodes(file: &[u8], map: &[u32], root: u64, point: &[f32], list: &mut [u32], out: &mut [u64]);
    trace_nodes = bsp_trace_nodes(file: &[u8], map: &[u32], hull: &[u64], segment: &[f32], list: &mut [u32], out: &mut [u64]);
    pvs = bsp_pvs(file: &[u8], map: &[u32], leaf: u64, leaf_count: u64, list: &mut [u32], out: &mut [u64]);
    pvs_team = bsp_pvs_team(file: &[u8], map: &[u32], leaves: &[u64], leaf_count: u64, list: &mut [u32], out: &mut [u64]);
    tree_check = bsp_tree_check(file: &[u8], map: &[u32], table: u32, root: u64, marks: &mut [u8], out: &mut [u64]);
    hull_check = bsp_hull_check(file: &[u8], map: &[u32], hull: &[u64], marks: &mut [u8], out: &mut [u64]);
    contents_box = bsp_contents_box(file: &[u8], map: &[u32], hull: &[u64], bounds: &[f32], marks: &mut [u8], out: &mut [u64]);
    accept = bsp_accept(file: &[u8], map: &[u32], marks: &mut [u8]);
    contents_points = bsp_contents_points(file: &[u8], map: &[u32], hull: &[u64], points: &[f32], list: &mut [u8], out: &mut [u64]);
    trace_line = bsp_trace_line(file: &[u8], map: &[u32], hull: &[u64], segment: &[f32], out: &mut [u64]);
    order = bsp_order(file: &[u8], map: &[u32], table: u32, root: u64, marks: &mut [u8], list: &mut [i32], out: &mut [u64]);
    order_contents = bsp_order_contents(file: &[u8], map: &[u32], list: &[i32], root: u64, point: &[f32], out: &mut [u64]);
    order_trace = bsp_order_trace(file: &[u8], map: &[u32], list: &[i32], root: u64, segment: &[f32], out: &mut [u64]);
    texture_frame = bsp_texture_frame(file: &[u8], map: &[u32], number: u64, group: u32, place: u64, out: &mut [u64]);
    texture_static = bsp_texture_static(file: &[u8], map: &[u32], number: u64, out: &mut [u64]);
    texture = bsp_texture(file: &[u8], map: &[u32], index: u64, out: &mut [u64]);
    texture_numbers = bsp_texture_numbers(file: &[u8], map: &[u32], list: &mut [u32], out: &mut [u64]);
    made_up = bsp_made_up(seed: u32, nodes: u64, buffer: &mut [u8], out: &mut [u64]);
    load_place = bsp_load_place(file: &[u8], out: &mut [u64]);
    version = bsp_version();
}

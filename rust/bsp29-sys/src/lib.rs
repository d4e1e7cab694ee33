//! The calls of the proved library for BSP29 maps: declarations and linking, and nothing else.
//!
//! `include/bsp29.h` says what each call answers and with what it refuses; the crate `bsp29` has them as
//! safe functions with Rust's own types. `build.rs` finds the library, and the crate's README says how it
//! is told where it lies.
//!
//! Each call but `bsp_version` answers 0 or the number of a refusal. A list is two parameters, a pointer to its first entry
//! and the number of its entries.
//!
//! # Safety
//!
//! Of every list that is handed to a call:
//!
//! - its pointer is not null and is aligned for its entries, even where the number of entries is 0;
//! - so many entries may be read there, and written where the pointer is `*mut`;
//! - a list that is written shares no bytes with another list of the same call, and nothing else looks at
//!   it while the call runs.
//!
//! No more is asked: whatever the entries hold, and whatever the other numbers are, a call ends, answers
//! or refuses, and reads and writes nothing but these lists. A call needs up to 989,000 bytes of stack.

#![no_std]
#![deny(missing_docs)]
#![allow(clippy::too_many_arguments)]

#[cfg(not(all(target_arch = "x86_64", target_pointer_width = "64")))]
compile_error!("the library is for x86-64");

/// The version of the declarations: that of the library that they were written for.
pub const VERSION: &str = env!("CARGO_PKG_VERSION");

/// How many words a map record has.
pub const MAP_WORDS: usize = 31;
/// How many words are enough for a record of every section.
pub const RECORD_WORDS: usize = 20;
/// How many words a hull has; a call that takes one asks for the first nine.
pub const HULL_WORDS: usize = 11;
/// How many words body sizes have.
pub const SIZES_WORDS: usize = 12;
/// How many words a trace has.
pub const TRACE_WORDS: usize = 17;
/// How many words a whole-line trace has.
pub const LINE_WORDS: usize = 12;
/// How many words a texture has.
pub const TEXTURE_WORDS: usize = 5;
/// How many words the place of a refusal has.
pub const PLACE_WORDS: usize = 4;

type Bytes = *const u8;
type Words = *const u32;
type Longs = *const u64;
type Floats = *const f32;
type BytesOut = *mut u8;
type WordsOut = *mut u32;
type LongsOut = *mut u64;
type Ints = *const i32;
type IntsOut = *mut i32;

// In the order of include/bsp29.h, which tests/header.rs holds them to.
#[rustfmt::skip]
#[allow(missing_docs)] // the header has it
extern "C" {
    pub fn bsp_load(file: Bytes, file_length: usize, map: WordsOut, map_length: usize) -> u32;
    pub fn bsp_load_place(file: Bytes, file_length: usize, out: LongsOut, out_length: usize) -> u32;
    pub fn bsp_record(file: Bytes, file_length: usize, map: Words, map_length: usize, section: u32, index: u64, out: LongsOut, out_length: usize) -> u32;
    pub fn bsp_count(map: Words, map_length: usize, section: u32, out: LongsOut, out_length: usize) -> u32;
    pub fn bsp_entities(file: Bytes, file_length: usize, map: Words, map_length: usize, out: LongsOut, out_length: usize) -> u32;
    pub fn bsp_hull(file: Bytes, file_length: usize, map: Words, map_length: usize, model: u64, index: u64, hull: LongsOut, hull_length: usize) -> u32;
    pub fn bsp_body_sizes(bytes: Bytes, bytes_length: usize, sizes: LongsOut, sizes_length: usize) -> u32;
    pub fn bsp_hull_sized(file: Bytes, file_length: usize, map: Words, map_length: usize, sizes: Longs, sizes_length: usize, model: u64, index: u64, hull: LongsOut, hull_length: usize) -> u32;
    pub fn bsp_box(bounds: Floats, bounds_length: usize, hull: LongsOut, hull_length: usize) -> u32;
    pub fn bsp_hull_check(file: Bytes, file_length: usize, map: Words, map_length: usize, hull: Longs, hull_length: usize, marks: BytesOut, marks_length: usize, out: LongsOut, out_length: usize) -> u32;
    pub fn bsp_contents(file: Bytes, file_length: usize, map: Words, map_length: usize, hull: Longs, hull_length: usize, point: Floats, point_length: usize, out: LongsOut, out_length: usize) -> u32;
    pub fn bsp_find_leaf(file: Bytes, file_length: usize, map: Words, map_length: usize, root: u64, point: Floats, point_length: usize, out: LongsOut, out_length: usize) -> u32;
    pub fn bsp_trace(file: Bytes, file_length: usize, map: Words, map_length: usize, hull: Longs, hull_length: usize, segment: Floats, segment_length: usize, out: LongsOut, out_length: usize) -> u32;
    pub fn bsp_contents_nodes(file: Bytes, file_length: usize, map: Words, map_length: usize, hull: Longs, hull_length: usize, point: Floats, point_length: usize, list: WordsOut, list_length: usize, out: LongsOut, out_length: usize) -> u32;
    pub fn bsp_find_leaf_nodes(file: Bytes, file_length: usize, map: Words, map_length: usize, root: u64, point: Floats, point_length: usize, list: WordsOut, list_length: usize, out: LongsOut, out_length: usize) -> u32;
    pub fn bsp_trace_nodes(file: Bytes, file_length: usize, map: Words, map_length: usize, hull: Longs, hull_length: usize, segment: Floats, segment_length: usize, list: WordsOut, list_length: usize, out: LongsOut, out_length: usize) -> u32;
    pub fn bsp_trace_line(file: Bytes, file_length: usize, map: Words, map_length: usize, hull: Longs, hull_length: usize, segment: Floats, segment_length: usize, out: LongsOut, out_length: usize) -> u32;
    pub fn bsp_contents_box(file: Bytes, file_length: usize, map: Words, map_length: usize, hull: Longs, hull_length: usize, bounds: Floats, bounds_length: usize, marks: BytesOut, marks_length: usize, out: LongsOut, out_length: usize) -> u32;
    pub fn bsp_contents_points(file: Bytes, file_length: usize, map: Words, map_length: usize, hull: Longs, hull_length: usize, points: Floats, points_length: usize, list: BytesOut, list_length: usize, out: LongsOut, out_length: usize) -> u32;
    pub fn bsp_order(file: Bytes, file_length: usize, map: Words, map_length: usize, table: u32, root: u64, marks: BytesOut, marks_length: usize, list: IntsOut, list_length: usize, out: LongsOut, out_length: usize) -> u32;
    pub fn bsp_order_contents(file: Bytes, file_length: usize, map: Words, map_length: usize, list: Ints, list_length: usize, root: u64, point: Floats, point_length: usize, out: LongsOut, out_length: usize) -> u32;
    pub fn bsp_order_trace(file: Bytes, file_length: usize, map: Words, map_length: usize, list: Ints, list_length: usize, root: u64, segment: Floats, segment_length: usize, out: LongsOut, out_length: usize) -> u32;
    pub fn bsp_pvs(file: Bytes, file_length: usize, map: Words, map_length: usize, leaf: u64, leaf_count: u64, list: WordsOut, list_length: usize, out: LongsOut, out_length: usize) -> u32;
    pub fn bsp_pvs_team(file: Bytes, file_length: usize, map: Words, map_length: usize, leaves: Longs, leaves_length: usize, leaf_count: u64, list: WordsOut, list_length: usize, out: LongsOut, out_length: usize) -> u32;
    pub fn bsp_tree_check(file: Bytes, file_length: usize, map: Words, map_length: usize, table: u32, root: u64, marks: BytesOut, marks_length: usize, out: LongsOut, out_length: usize) -> u32;
    pub fn bsp_accept(file: Bytes, file_length: usize, map: Words, map_length: usize, marks: BytesOut, marks_length: usize) -> u32;
    pub fn bsp_texture_frame(file: Bytes, file_length: usize, map: Words, map_length: usize, number: u64, group: u32, place: u64, out: LongsOut, out_length: usize) -> u32;
    pub fn bsp_texture_static(file: Bytes, file_length: usize, map: Words, map_length: usize, number: u64, out: LongsOut, out_length: usize) -> u32;
    pub fn bsp_texture(file: Bytes, file_length: usize, map: Words, map_length: usize, index: u64, out: LongsOut, out_length: usize) -> u32;
    pub fn bsp_texture_numbers(file: Bytes, file_length: usize, map: Words, map_length: usize, list: WordsOut, list_length: usize, out: LongsOut, out_length: usize) -> u32;
    pub fn bsp_made_up(seed: u32, nodes: u64, buffer: BytesOut, buffer_length: usize, out: LongsOut, out_length: usize) -> u32;
    pub fn bsp_version() -> u32;
}

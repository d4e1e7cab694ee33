//! The proved functions, as the static library of the crate ffi_math exports them.
//!
//! A plane is passed as kind, normal and dist; kinds 0, 1 and 2 are axis planes, any other holds
//! exactly its normal. An answer plane is five words: kind (0 to 3), the bits of `normal()`, the
//! bits of dist. A float in a word is its 32 bits, every NaN 0x7fc00000. A trace is passed as a
//! pointer to its words and their number.

macro_rules! functions {
    ($($field:ident = $name:ident: fn($($argument:ident: $type:ty),*) -> $answer:ty;)*) => {
        extern "C" {
            $(pub fn $name($($argument: $type),*) -> $answer;)*
        }

        /// The functions compared, by pointer, so that a test can put a wrong one in a place.
        #[derive(Copy, Clone)]
        pub struct Leaves {
            $(pub $field: unsafe extern "C" fn($($argument: $type),*) -> $answer,)*
        }

        impl Leaves {
            pub fn linked() -> Leaves {
                Leaves { $($field: $name,)* }
            }
        }
    };
}

functions! {
    sqrt = float_sqrt: fn(x: f32) -> f32;
    floor = float_floor: fn(x: f32) -> f32;
    ceil = float_ceil: fn(x: f32) -> f32;
    min = float_min: fn(a: f32, b: f32) -> f32;
    max = float_max: fn(a: f32, b: f32) -> f32;
    to_i16 = float_to_i16: fn(x: f32) -> i16;
    times_16 = float_times_16: fn(v: i16) -> i16;

    add = vector_add: fn(ax: f32, ay: f32, az: f32, bx: f32, by: f32, bz: f32, part: u32) -> f32;
    sub = vector_sub: fn(ax: f32, ay: f32, az: f32, bx: f32, by: f32, bz: f32, part: u32) -> f32;
    scale = vector_scale: fn(k: f32, x: f32, y: f32, z: f32, part: u32) -> f32;
    negate = vector_negate: fn(x: f32, y: f32, z: f32, part: u32) -> f32;
    normalize = vector_normalize: fn(x: f32, y: f32, z: f32, part: u32) -> f32;
    dot = vector_dot: fn(ax: f32, ay: f32, az: f32, bx: f32, by: f32, bz: f32) -> f32;
    magnitude = vector_magnitude: fn(x: f32, y: f32, z: f32) -> f32;
    equals = vector_equals: fn(ax: f32, ay: f32, az: f32, bx: f32, by: f32, bz: f32) -> bool;

    plane_axis = plane_axis_word: fn(axis: u32, dist: f32, word: u32) -> u32;
    plane_new = plane_new_word: fn(nx: f32, ny: f32, nz: f32, dist: f32, word: u32) -> u32;
    plane_from_normal = plane_from_normal_word: fn(nx: f32, ny: f32, nz: f32, dist: f32, word: u32) -> u32;
    plane_negate = plane_negate_word: fn(kind: u32, nx: f32, ny: f32, nz: f32, dist: f32, word: u32) -> u32;
    point_dist = plane_point_dist: fn(kind: u32, nx: f32, ny: f32, nz: f32, dist: f32, px: f32, py: f32, pz: f32) -> f32;
    point_side = plane_point_side: fn(kind: u32, nx: f32, ny: f32, nz: f32, dist: f32, px: f32, py: f32, pz: f32) -> u32;
    crossing = plane_crossing_word: fn(kind: u32, nx: f32, ny: f32, nz: f32, dist: f32, sx: f32, sy: f32, sz: f32, ex: f32, ey: f32, ez: f32, word: u32) -> u32;

    trace_new = trace_new_word: fn(trace: *const u32, length: usize, word: u32) -> u32;
    trace_join = trace_join_word: fn(first: *const u32, first_length: usize, second: *const u32, second_length: usize, word: u32) -> u32;
    trace_adjust = trace_adjust_word: fn(trace: *const u32, length: usize, x: f32, y: f32, z: f32, word: u32) -> u32;
    trace_start_point = trace_start_point: fn(trace: *const u32, length: usize, part: u32) -> f32;
    trace_end_point = trace_end_point: fn(trace: *const u32, length: usize, part: u32) -> f32;
    trace_ratio = trace_ratio: fn(trace: *const u32, length: usize) -> f32;
    trace_is_terminal = trace_is_terminal: fn(trace: *const u32, length: usize) -> bool;
    trace_all_solid = trace_all_solid: fn(trace: *const u32, length: usize) -> bool;
    trace_start_solid = trace_start_solid: fn(trace: *const u32, length: usize) -> bool;
    trace_in_open = trace_in_open: fn(trace: *const u32, length: usize) -> bool;
    trace_in_water = trace_in_water: fn(trace: *const u32, length: usize) -> bool;
}

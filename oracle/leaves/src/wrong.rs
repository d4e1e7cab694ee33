//! A wrong function in any one place is noticed, and no other is blamed for it.

use maps::floats::bits;

use crate::compare::{compare, Plan};
use crate::proved::*;

const PLAN: Plan = Plan { quick: true, threads: 1, seed: 7 };

fn blamed(leaves: &Leaves) -> Vec<String> {
    compare(leaves, &PLAN, |_| ()).into_iter().filter(|t| t.differed > 0).map(|t| t.name).collect()
}

#[test]
fn the_library_agrees() {
    assert_eq!(blamed(&Leaves::linked()), Vec::<String>::new());
}

macro_rules! wrong {
    ($test:ident, $field:ident, $name:literal, |$($a:ident: $t:ty),*| -> $answer:ty $body:block) => {
        #[test]
        fn $test() {
            #[allow(unused_variables, clippy::too_many_arguments, clippy::neg_cmp_op_on_partial_ord)]
            unsafe extern "C" fn wrong($($a: $t),*) -> $answer $body
            assert_eq!(blamed(&Leaves { $field: wrong, ..Leaves::linked() }), [$name]);
        }
    };
}

wrong!(wrong_sqrt, sqrt, "float_sqrt", |x: f32| -> f32 {
    // right but for one pattern next to a power of two
    if x.to_bits() == 0x3f80_0001 {
        1.0000001
    } else {
        x.sqrt()
    }
});
wrong!(wrong_floor, floor, "float_floor", |x: f32| -> f32 { x.floor() + 0.0 });
wrong!(wrong_ceil, ceil, "float_ceil", |x: f32| -> f32 { -(-x + 0.0).floor() });
wrong!(wrong_cast, to_i16, "float_to_i16", |x: f32| -> i16 { x as i32 as i16 });
wrong!(wrong_times, times_16, "float_times_16", |v: i16| -> i16 { v.saturating_mul(16) });
wrong!(wrong_min, min, "float_min", |a: f32, b: f32| -> f32 {
    if b < a {
        b
    } else {
        a
    }
});
wrong!(wrong_max, max, "float_max", |a: f32, b: f32| -> f32 {
    if a > b {
        a
    } else {
        b
    }
});
wrong!(wrong_dot, dot, "vector_dot", |ax: f32,
                                      ay: f32,
                                      az: f32,
                                      bx: f32,
                                      by: f32,
                                      bz: f32|
 -> f32 { ax * bx + (ay * by + az * bz) });
wrong!(wrong_part, negate, "vector_negate", |x: f32, y: f32, z: f32, p: u32| -> f32 {
    if p == 1 {
        -y
    } else if p == 0 {
        -x
    } else {
        -z
    }
});
wrong!(wrong_normalize, normalize, "vector_normalize", |x: f32, y: f32, z: f32, p: u32| -> f32 {
    let m = vector_magnitude(x, y, z);
    if p == 0 {
        x / m
    } else if p == 1 {
        y / m
    } else if p == 2 {
        z / m
    } else {
        0.0
    }
});
wrong!(wrong_equals, equals, "vector_equals", |ax: f32,
                                               ay: f32,
                                               az: f32,
                                               bx: f32,
                                               by: f32,
                                               bz: f32|
 -> bool {
    ax.to_bits() == bx.to_bits() && ay == by && az == bz
});
wrong!(wrong_new, plane_new, "plane_new_word", |nx: f32,
                                                ny: f32,
                                                nz: f32,
                                                dist: f32,
                                                w: u32|
 -> u32 {
    // normalised once
    let n = |p| vector_normalize(nx, ny, nz, p);
    let kind = plane_new_word(nx, ny, nz, dist, 0);
    if kind == 3 && (1..4).contains(&w) {
        bits(n(w - 1))
    } else {
        plane_new_word(nx, ny, nz, dist, w)
    }
});
wrong!(wrong_side, point_side, "plane_point_side", |k: u32,
                                                    nx: f32,
                                                    ny: f32,
                                                    nz: f32,
                                                    d: f32,
                                                    px: f32,
                                                    py: f32,
                                                    pz: f32|
 -> u32 {
    // one side test throughout
    !(plane_point_dist(k, nx, ny, nz, d, px, py, pz) >= 0.0) as u32
});
wrong!(wrong_crossing, crossing, "plane_crossing_word", |k: u32,
                                                         nx: f32,
                                                         ny: f32,
                                                         nz: f32,
                                                         d: f32,
                                                         sx: f32,
                                                         sy: f32,
                                                         sz: f32,
                                                         ex: f32,
                                                         ey: f32,
                                                         ez: f32,
                                                         w: u32|
 -> u32 {
    // the plane left as it is on the way from the negative side
    let right = plane_crossing_word(k, nx, ny, nz, d, sx, sy, sz, ex, ey, ez, w);
    if w == 9 && right != 0 {
        bits(d)
    } else {
        right
    }
});
wrong!(wrong_new_trace, trace_new, "trace_new_word", |t: *const u32, n: usize, w: u32| -> u32 {
    // the flag that was handed in
    trace_adjust_word(t, n, -0.0, -0.0, -0.0, w)
});
wrong!(wrong_join, trace_join, "trace_join_word", |a: *const u32,
                                                   n: usize,
                                                   b: *const u32,
                                                   m: usize,
                                                   w: u32|
 -> u32 {
    // out of a solid that the first trace did not start in
    if w == 2 && trace_join_word(a, n, b, m, 0) == 0 {
        trace_start_solid(a, n) as u32
    } else {
        trace_join_word(a, n, b, m, w)
    }
});
wrong!(wrong_meeting, trace_join, "trace_join_word", |a: *const u32,
                                                      n: usize,
                                                      b: *const u32,
                                                      m: usize,
                                                      w: u32|
 -> u32 {
    // by the bits, so that two zeros differ
    let part = |p| bits(trace_end_point(a, n, p)) == bits(trace_start_point(b, m, p));
    if (0..3).all(part) {
        trace_join_word(a, n, b, m, w)
    } else if w == 0 {
        19
    } else {
        0
    }
});
wrong!(wrong_adjust, trace_adjust, "trace_adjust_word", |t: *const u32,
                                                         n: usize,
                                                         x: f32,
                                                         y: f32,
                                                         z: f32,
                                                         w: u32|
 -> u32 {
    // the end left where it was
    let by = if (6..9).contains(&w) { [-0.0; 3] } else { [x, y, z] };
    trace_adjust_word(t, n, by[0], by[1], by[2], w)
});
wrong!(wrong_start_point, trace_start_point, "trace_start_point", |t: *const u32,
                                                                   n: usize,
                                                                   p: u32|
 -> f32 {
    trace_end_point(t, n, p)
});
wrong!(wrong_end_point, trace_end_point, "trace_end_point", |t: *const u32,
                                                             n: usize,
                                                             p: u32|
 -> f32 {
    trace_end_point(t, n, p) + 0.0
});
wrong!(wrong_ratio, trace_ratio, "trace_ratio", |t: *const u32, n: usize| -> f32 {
    // a terminal end as a boundary at 0
    f32::from_bits(trace_adjust_word(t, n, 0.0, 0.0, 0.0, 10))
});
wrong!(wrong_terminal, trace_is_terminal, "trace_is_terminal", |t: *const u32, n: usize| -> bool {
    trace_ratio(t, n) == 1.0
});
wrong!(wrong_solid, trace_all_solid, "trace_all_solid", |t: *const u32, n: usize| -> bool {
    trace_start_solid(t, n)
});
wrong!(wrong_start_solid, trace_start_solid, "trace_start_solid", |t: *const u32,
                                                                   n: usize|
 -> bool {
    trace_all_solid(t, n)
});
wrong!(wrong_open, trace_in_open, "trace_in_open", |t: *const u32, n: usize| -> bool {
    !trace_all_solid(t, n)
});
wrong!(wrong_water, trace_in_water, "trace_in_water", |t: *const u32, n: usize| -> bool {
    // slime and what follows left out
    trace_new_word(t, n, 0) == 3
});

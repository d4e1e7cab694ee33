//! The float, vector, plane and trace functions: the proved ones beside Rust's own f32 and the
//! published math.rs and phys.rs.

use std::hint::black_box;
use std::thread;

use maps::cases::{self, PlaneCase, Seed, Vector, CORE, SPECIAL};
use maps::floats::{bits, show};
use richter::{plane as rust, Crossing, Plane};

use crate::proved::Leaves;
use crate::tally::Tally;
use crate::traces;

pub struct Plan {
    /// Every 251st pattern and a twentieth of the seeded cases.
    pub quick: bool,
    pub threads: u64,
    pub seed: u64,
}

impl Plan {
    pub fn seeded(&self) -> u64 {
        if self.quick {
            200_000
        } else {
            4_000_000
        }
    }
}

/// Compares everything and prints the counts; true if nothing differed.
pub fn run(plan: &Plan) -> bool {
    let tallies = compare(&Leaves::linked(), plan, |tally| tally.print());
    let differed = tallies.iter().filter(|t| t.differed > 0).count();
    let cases: u64 = tallies.iter().map(|t| t.cases).sum();
    println!("{} functions, {} cases, {} functions differ", tallies.len(), cases, differed);
    differed == 0
}

/// The functions, each with its comparison.
const FUNCTIONS: [fn(&Leaves, &Plan) -> Tally; 33] = [
    sqrt,
    floor,
    ceil,
    to_i16,
    times_16,
    min,
    max,
    add,
    sub,
    scale,
    negate,
    normalize,
    dot,
    magnitude,
    equals,
    plane_axis,
    plane_new,
    plane_from_normal,
    plane_negate,
    point_dist,
    point_side,
    crossing,
    traces::new,
    traces::join,
    traces::adjust,
    traces::start_point,
    traces::end_point,
    traces::ratio,
    traces::is_terminal,
    traces::all_solid,
    traces::start_solid,
    traces::in_open,
    traces::in_water,
];

pub fn compare(proved: &Leaves, plan: &Plan, mut done: impl FnMut(&Tally)) -> Vec<Tally> {
    FUNCTIONS
        .into_iter()
        .map(|function| {
            let tally = function(proved, plan);
            done(&tally);
            tally
        })
        .collect()
}

// One float: every pattern.

fn sqrt(proved: &Leaves, plan: &Plan) -> Tally {
    let f = proved.sqrt;
    patterns("float_sqrt", plan, move |x| (bits(unsafe { f(x) }), bits(x.sqrt())))
}

fn floor(proved: &Leaves, plan: &Plan) -> Tally {
    let f = proved.floor;
    patterns("float_floor", plan, move |x| (bits(unsafe { f(x) }), bits(x.floor())))
}

fn ceil(proved: &Leaves, plan: &Plan) -> Tally {
    let f = proved.ceil;
    patterns("float_ceil", plan, move |x| (bits(unsafe { f(x) }), bits(x.ceil())))
}

fn to_i16(proved: &Leaves, plan: &Plan) -> Tally {
    let f = proved.to_i16;
    patterns("float_to_i16", plan, move |x| (unsafe { f(x) } as u16 as u32, x as i16 as u16 as u32))
}

/// All 2^32 patterns, or every 251st and those next to a power of two.
fn patterns(name: &str, plan: &Plan, both: impl Fn(f32) -> (u32, u32) + Copy + Send) -> Tally {
    let step = if plan.quick { 251 } else { 1 };
    let part = (1u64 << 32) / plan.threads + 1;
    let mut whole = Tally::new(name);
    thread::scope(|scope| {
        let parts: Vec<_> = (0..plan.threads)
            .map(|n| {
                scope.spawn(move || {
                    let mut tally = Tally::new("");
                    let mut at = (n * part).next_multiple_of(step);
                    while at < ((n + 1) * part).min(1 << 32) {
                        one(&mut tally, at as u32, both);
                        at += step;
                    }
                    tally
                })
            })
            .collect();
        for part in parts {
            whole.join(part.join().expect("a part of the patterns"));
        }
    });
    if plan.quick {
        for edge in 0..512u32 {
            for by in 0..128u32 {
                one(&mut whole, (edge << 23).wrapping_add(by).wrapping_sub(64), both);
            }
        }
    }
    whole
}

#[inline(always)]
fn one(tally: &mut Tally, pattern: u32, both: impl Fn(f32) -> (u32, u32)) {
    let x = f32::from_bits(pattern);
    let (proved, rust) = both(black_box(x));
    tally.count(proved == rust, || {
        format!("{} gives {:08x}, Rust {:08x}", show(&[x]), proved, rust)
    });
}

fn times_16(proved: &Leaves, _plan: &Plan) -> Tally {
    let mut tally = Tally::new("float_times_16");
    for v in i16::MIN..=i16::MAX {
        let p = unsafe { (proved.times_16)(v) };
        let r = black_box(v).wrapping_mul(16);
        tally.count(p == r, || format!("{} gives {}, Rust {}", v, p, r));
    }
    tally
}

// Two floats: every pair of special ones, then seeded ones.

fn min(proved: &Leaves, plan: &Plan) -> Tally {
    pairs("float_min", plan, proved.min, |a, b| a.min(b))
}

fn max(proved: &Leaves, plan: &Plan) -> Tally {
    pairs("float_max", plan, proved.max, |a, b| a.max(b))
}

fn pairs(
    name: &str,
    plan: &Plan,
    proved: unsafe extern "C" fn(f32, f32) -> f32,
    rust: fn(f32, f32) -> f32,
) -> Tally {
    let mut tally = Tally::new(name);
    let mut one = |a: f32, b: f32| {
        let p = unsafe { proved(a, b) };
        let r = rust(black_box(a), black_box(b));
        let zeros = p == 0.0 && r == 0.0;
        if zeros && bits(p) != bits(r) {
            tally.zero_signs += 1;
        }
        tally.count(zeros || bits(p) == bits(r), || {
            format!("{} gives {:08x}, Rust {:08x}", show(&[a, b]), bits(p), bits(r))
        });
    };
    for a in SPECIAL {
        for b in SPECIAL {
            one(a, b);
        }
    }
    let mut seed = Seed::named(plan.seed, name);
    for _ in 0..plan.seeded() {
        let a = cases::float(&mut seed);
        let b =
            if seed.once_in(8) { cases::nudged(&mut seed, a, 2) } else { cases::float(&mut seed) };
        one(a, b);
    }
    tally
}

// Vectors: every combination of the core floats, then seeded ones. A part past the third is 0.

pub const PARTS: [u32; 5] = [0, 1, 2, 3, u32::MAX];

pub fn part(v: Vector, part: u32) -> f32 {
    v.get(part as usize).copied().unwrap_or(0.0)
}

/// Calls `one` with every combination of core floats in N places.
pub fn combinations<const N: usize>(mut one: impl FnMut([f32; N])) {
    for number in 0..8usize.pow(N as u32) {
        let mut floats = [0.0; N];
        for (at, float) in floats.iter_mut().enumerate() {
            *float = CORE[number >> (3 * at) & 7];
        }
        one(floats);
    }
}

fn two_vectors(name: &str, plan: &Plan, mut both: impl FnMut(Vector, Vector) -> Differs) -> Tally {
    let mut tally = Tally::new(name);
    let mut one = |a: Vector, b: Vector| {
        let differs = both(a, b);
        tally.count(differs.is_none(), || {
            format!("({}) ({}): {}", show(&a), show(&b), differs.unwrap())
        });
    };
    combinations::<6>(|v| one([v[0], v[1], v[2]], [v[3], v[4], v[5]]));
    let mut seed = Seed::named(plan.seed, name);
    for _ in 0..plan.seeded() {
        let a = cases::vector(&mut seed);
        let mut b = if seed.once_in(4) { a } else { cases::vector(&mut seed) };
        if seed.once_in(4) {
            let at = seed.below(3) as usize;
            b[at] = cases::nudged(&mut seed, a[at], 1);
        }
        one(a, b);
    }
    tally
}

fn one_vector(name: &str, plan: &Plan, mut both: impl FnMut(f32, Vector) -> Differs) -> Tally {
    let mut tally = Tally::new(name);
    let mut one = |k: f32, v: Vector| {
        let differs = both(k, v);
        tally.count(differs.is_none(), || {
            format!("{} ({}): {}", show(&[k]), show(&v), differs.unwrap())
        });
    };
    combinations::<4>(|v| one(v[0], [v[1], v[2], v[3]]));
    for x in SPECIAL {
        for y in SPECIAL {
            for z in SPECIAL {
                one(x, [x, y, z]);
            }
        }
    }
    let mut seed = Seed::named(plan.seed, name);
    for _ in 0..plan.seeded() {
        one(cases::float(&mut seed), cases::vector(&mut seed));
    }
    tally
}

/// Where two answers differ: the word, the proved one, Rust's.
pub type Differs = Option<String>;

pub fn words(proved: impl Fn(u32) -> u32, rust: impl Fn(u32) -> u32, asked: &[u32]) -> Differs {
    for &at in asked {
        let (p, r) = (proved(at), rust(at));
        if p != r {
            return Some(format!("word {} is {:08x}, Rust {:08x}", at, p, r));
        }
    }
    None
}

fn add(proved: &Leaves, plan: &Plan) -> Tally {
    two_vectors("vector_add", plan, |a, b| {
        let r = rust::add(a, b);
        let f = |p| bits(unsafe { (proved.add)(a[0], a[1], a[2], b[0], b[1], b[2], p) });
        words(f, |p| bits(part(r, p)), &PARTS)
    })
}

fn sub(proved: &Leaves, plan: &Plan) -> Tally {
    two_vectors("vector_sub", plan, |a, b| {
        let r = rust::sub(a, b);
        let f = |p| bits(unsafe { (proved.sub)(a[0], a[1], a[2], b[0], b[1], b[2], p) });
        words(f, |p| bits(part(r, p)), &PARTS)
    })
}

fn dot(proved: &Leaves, plan: &Plan) -> Tally {
    two_vectors("vector_dot", plan, |a, b| {
        let r = bits(rust::dot(a, b));
        let f = |_| bits(unsafe { (proved.dot)(a[0], a[1], a[2], b[0], b[1], b[2]) });
        words(f, |_| r, &[0])
    })
}

fn equals(proved: &Leaves, plan: &Plan) -> Tally {
    two_vectors("vector_equals", plan, |a, b| {
        let r = rust::equals(a, b) as u32;
        let f = |_| unsafe { (proved.equals)(a[0], a[1], a[2], b[0], b[1], b[2]) } as u32;
        words(f, |_| r, &[0])
    })
}

fn scale(proved: &Leaves, plan: &Plan) -> Tally {
    one_vector("vector_scale", plan, |k, v| {
        let r = rust::scale(k, v);
        let f = |p| bits(unsafe { (proved.scale)(k, v[0], v[1], v[2], p) });
        words(f, |p| bits(part(r, p)), &PARTS)
    })
}

fn negate(proved: &Leaves, plan: &Plan) -> Tally {
    one_vector("vector_negate", plan, |_, v| {
        let r = rust::negate(v);
        let f = |p| bits(unsafe { (proved.negate)(v[0], v[1], v[2], p) });
        words(f, |p| bits(part(r, p)), &PARTS)
    })
}

fn normalize(proved: &Leaves, plan: &Plan) -> Tally {
    one_vector("vector_normalize", plan, |_, v| {
        let r = rust::normalize(v);
        let f = |p| bits(unsafe { (proved.normalize)(v[0], v[1], v[2], p) });
        words(f, |p| bits(part(r, p)), &PARTS)
    })
}

fn magnitude(proved: &Leaves, plan: &Plan) -> Tally {
    one_vector("vector_magnitude", plan, |_, v| {
        let r = bits(rust::magnitude(v));
        let f = |_| bits(unsafe { (proved.magnitude)(v[0], v[1], v[2]) });
        words(f, |_| r, &[0])
    })
}

// Planes. A word past the last is 0.

const PLANE_WORDS: [u32; 7] = [0, 1, 2, 3, 4, 5, u32::MAX];
const CROSSING_WORDS: [u32; 12] = [0, 1, 2, 3, 4, 5, 6, 7, 8, 9, 10, u32::MAX];

pub fn plane_words(p: Plane) -> [u32; 5] {
    [p.kind, bits(p.normal[0]), bits(p.normal[1]), bits(p.normal[2]), bits(p.dist)]
}

fn crossing_words(crossing: Crossing) -> [u32; 10] {
    let mut words = [0; 10];
    match crossing {
        Crossing::None { side } => words[1] = side,
        Crossing::Point { ratio, point, plane } => {
            words[0] = 1;
            words[1] = bits(ratio);
            for at in 0..3 {
                words[2 + at] = bits(point[at]);
            }
            words[5..].copy_from_slice(&plane_words(plane));
        }
    }
    words
}

pub fn word(words: &[u32], at: u32) -> u32 {
    words.get(at as usize).copied().unwrap_or(0)
}

fn planes(name: &str, plan: &Plan, mut both: impl FnMut(PlaneCase) -> Differs) -> Tally {
    let mut tally = Tally::new(name);
    let mut one = |p: PlaneCase| {
        let differs = both(p);
        tally.count(differs.is_none(), || {
            format!(
                "plane {} ({}) {}: {}",
                p.kind,
                show(&p.normal),
                show(&[p.dist]),
                differs.unwrap()
            )
        });
    };
    for kind in 0..5 {
        combinations::<4>(|v| one(PlaneCase { kind, normal: [v[0], v[1], v[2]], dist: v[3] }));
    }
    let mut seed = Seed::named(plan.seed, name);
    for _ in 0..plan.seeded() {
        one(cases::plane(&mut seed));
    }
    tally
}

fn plane_axis(proved: &Leaves, plan: &Plan) -> Tally {
    planes("plane_axis_word", plan, |c| {
        let r = plane_words(Plane::axis(c.kind, c.dist));
        let f = |w| unsafe { (proved.plane_axis)(c.kind, c.dist, w) };
        words(f, |w| word(&r, w), &PLANE_WORDS)
    })
}

fn plane_new(proved: &Leaves, plan: &Plan) -> Tally {
    planes("plane_new_word", plan, |c| {
        let n = c.normal;
        let r = plane_words(Plane::new(n, c.dist));
        let f = |w| unsafe { (proved.plane_new)(n[0], n[1], n[2], c.dist, w) };
        words(f, |w| word(&r, w), &PLANE_WORDS)
    })
}

fn plane_from_normal(proved: &Leaves, plan: &Plan) -> Tally {
    planes("plane_from_normal_word", plan, |c| {
        let n = c.normal;
        let r = plane_words(Plane::from_normal(n, c.dist));
        let f = |w| unsafe { (proved.plane_from_normal)(n[0], n[1], n[2], c.dist, w) };
        words(f, |w| word(&r, w), &PLANE_WORDS)
    })
}

fn plane_negate(proved: &Leaves, plan: &Plan) -> Tally {
    planes("plane_negate_word", plan, |c| {
        let n = c.normal;
        let r = plane_words(Plane::held(c.kind, n, c.dist).negate());
        let f = |w| unsafe { (proved.plane_negate)(c.kind, n[0], n[1], n[2], c.dist, w) };
        words(f, |w| word(&r, w), &PLANE_WORDS)
    })
}

/// A plane and two points.
fn segments(
    name: &str,
    plan: &Plan,
    mut both: impl FnMut(PlaneCase, Vector, Vector) -> Differs,
) -> Tally {
    let mut tally = Tally::new(name);
    let mut one = |p: PlaneCase, a: Vector, b: Vector| {
        let differs = both(p, a, b);
        tally.count(differs.is_none(), || {
            format!(
                "plane {} ({}) {} from ({}) to ({}): {}",
                p.kind,
                show(&p.normal),
                show(&[p.dist]),
                show(&a),
                show(&b),
                differs.unwrap()
            )
        });
    };
    on_axes(&mut one);
    if !plan.quick {
        combinations::<7>(|v| {
            let plane = PlaneCase { kind: 3, normal: [v[0], v[1], v[2]], dist: v[3] };
            one(plane, [v[4], v[5], v[6]], [v[6], v[4], v[5]]);
        });
    }
    let mut seed = Seed::named(plan.seed, name);
    for _ in 0..plan.seeded() {
        let plane = cases::plane(&mut seed);
        let a = cases::point(&mut seed, &plane);
        let b = match seed.below(4) {
            // to the other side, most often
            0 => [-a[0], -a[1], -a[2]],
            _ => cases::point(&mut seed, &plane),
        };
        one(plane, a, b);
    }
    tally
}

/// Axis planes: every dist, two coordinates and the same elsewhere.
fn on_axes(one: &mut impl FnMut(PlaneCase, Vector, Vector)) {
    for kind in 0..3 {
        for dist in SPECIAL {
            for from in SPECIAL {
                for to in SPECIAL {
                    let plane = PlaneCase { kind, normal: [0.0; 3], dist };
                    let (mut a, mut b) = ([1.0, 2.0, 4.0], [3.0, -5.0, 7.0]);
                    a[kind as usize] = from;
                    b[kind as usize] = to;
                    one(plane, a, b);
                }
            }
        }
    }
}

fn point_dist(proved: &Leaves, plan: &Plan) -> Tally {
    segments("plane_point_dist", plan, |c, p, _| {
        let n = c.normal;
        let r = bits(Plane::held(c.kind, n, c.dist).point_dist(p));
        let f = |_| {
            bits(unsafe { (proved.point_dist)(c.kind, n[0], n[1], n[2], c.dist, p[0], p[1], p[2]) })
        };
        words(f, |_| r, &[0])
    })
}

fn point_side(proved: &Leaves, plan: &Plan) -> Tally {
    segments("plane_point_side", plan, |c, p, _| {
        let n = c.normal;
        let r = Plane::held(c.kind, n, c.dist).point_side(p);
        let f =
            |_| unsafe { (proved.point_side)(c.kind, n[0], n[1], n[2], c.dist, p[0], p[1], p[2]) };
        words(f, |_| r, &[0])
    })
}

fn crossing(proved: &Leaves, plan: &Plan) -> Tally {
    segments("plane_crossing_word", plan, |c, s, e| {
        let n = c.normal;
        let r = crossing_words(Plane::held(c.kind, n, c.dist).crossing(s, e));
        let f = |w| unsafe {
            (proved.crossing)(
                c.kind, n[0], n[1], n[2], c.dist, s[0], s[1], s[2], e[0], e[1], e[2], w,
            )
        };
        words(f, |w| word(&r, w), &CROSSING_WORDS)
    })
}

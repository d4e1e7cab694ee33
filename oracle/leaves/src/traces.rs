//! The functions on traces: the proved ones beside the published phys.rs.
//!
//! A trace is passed as sixteen words: contents code, started solid, the start's point and ratio,
//! the end's point, 0 for a terminal end or another number for a boundary, its ratio and plane.
//! A code that names no contents counts as 1, and a word past the list's end as 0.

use maps::cases::{self, Seed, Vector, CORE, SPECIAL};
use maps::floats::bits;
use richter::{Plane, Refusal, Trace};

use crate::compare::{combinations, part, plane_words, word, words, Differs, Plan, PARTS};
use crate::proved::Leaves;
use crate::tally::Tally;

type Words = [u32; 16];

/// The codes of contents.
const CODES: [u32; 12] = [1, 2, 3, 4, 5, 6, 9, 10, 11, 12, 13, 14];

/// Every word of a trace and some past the last.
const TRACE_WORDS: [u32; 18] = [0, 1, 2, 3, 4, 5, 6, 7, 8, 9, 10, 11, 12, 13, 14, 15, 16, u32::MAX];
const JOINED_WORDS: [u32; 19] =
    [0, 1, 2, 3, 4, 5, 6, 7, 8, 9, 10, 11, 12, 13, 14, 15, 16, 17, u32::MAX];

/// The trace that a list of words stands for.
fn given(words: &[u32]) -> Trace {
    let word = |at: usize| words.get(at).copied().unwrap_or(0);
    let float = |at: usize| f32::from_bits(word(at));
    let point = |at: usize| [float(at), float(at + 1), float(at + 2)];
    let boundary = || (float(10), Plane::held(word(11), point(12), float(15)));
    Trace {
        start: point(2),
        start_ratio: float(5),
        end: point(6),
        boundary: (word(9) != 0).then(boundary),
        contents: if CODES.contains(&word(0)) { word(0) } else { 1 },
        start_solid: word(1) != 0,
    }
}

fn trace_words(t: Trace) -> Words {
    let mut words = [0; 16];
    words[0] = t.contents;
    words[1] = t.start_solid as u32;
    words[5] = bits(t.start_ratio);
    for at in 0..3 {
        words[2 + at] = bits(t.start[at]);
        words[6 + at] = bits(t.end[at]);
    }
    if let Some((ratio, plane)) = t.boundary {
        words[9] = 1;
        words[10] = bits(ratio);
        words[11..].copy_from_slice(&plane_words(plane));
    }
    words
}

/// The number of a refusal or 0, and the trace.
fn joined_words(joined: Result<Trace, Refusal>) -> Vec<u32> {
    match joined {
        Ok(trace) => [0].into_iter().chain(trace_words(trace)).collect(),
        Err(Refusal::Number(number)) => vec![number],
        Err(other) => panic!("a join answers {other}"),
    }
}

/// A trace from one point to another that crosses a plane into the contents of a code.
fn plain(code: u32, start_solid: u32, start: Vector, end: Vector, kind: u32) -> Words {
    let mut words = [0; 16];
    words[0] = code;
    words[1] = start_solid;
    words[9] = kind;
    let floats = [(5, 0.25), (10, 0.75), (12, 0.6), (13, 0.8), (14, 0.0), (15, 4.0)];
    for (at, float) in floats {
        words[at] = f32::to_bits(float);
    }
    words[11] = 3;
    for at in 0..3 {
        words[2 + at] = start[at].to_bits();
        words[6 + at] = end[at].to_bits();
    }
    words
}

/// Any trace: its end a boundary in most, its contents solid or empty in many.
fn any(seed: &mut Seed) -> Words {
    let code = match seed.below(16) {
        n @ 0..=11 => CODES[n as usize],
        12 | 13 => 2,
        14 => 1,
        _ => seed.below(20) as u32,
    };
    let number = |seed: &mut Seed| match seed.below(8) {
        0 | 1 => 0,
        2 => seed.next() as u32,
        _ => 1,
    };
    let plane = cases::plane(seed);
    let (start_solid, kind) = (number(seed), number(seed));
    let mut words = plain(code, start_solid, cases::vector(seed), cases::vector(seed), kind);
    words[5] = cases::float(seed).to_bits();
    words[10] = cases::float(seed).to_bits();
    words[11] = plane.kind;
    for at in 0..3 {
        words[12 + at] = plane.normal[at].to_bits();
    }
    words[15] = plane.dist.to_bits();
    words
}

/// The first so many words of a trace, all of them in most.
fn cut(seed: &mut Seed, words: &Words) -> usize {
    if seed.once_in(64) {
        seed.below(17) as usize
    } else {
        words.len()
    }
}

/// Every code, flag and kind of end with every special ratio; every special float in every other
/// place; lists that are too short; then seeded ones.
fn traces(name: &str, plan: &Plan, mut both: impl FnMut(&[u32]) -> Differs) -> Tally {
    let mut tally = Tally::new(name);
    let mut one = |words: &[u32]| {
        let differs = both(words);
        tally.count(differs.is_none(), || format!("{words:x?}: {}", differs.unwrap()));
    };
    let (start, end) = ([1.0, -2.0, 4.0], [3.0, 5.0, -7.0]);
    for code in (0..=16).chain([u32::MAX]) {
        for flag in [0, 1, 2, u32::MAX] {
            for kind in [0, 1, 2, u32::MAX] {
                let mut words = plain(code, flag, start, end, kind);
                for ratio in SPECIAL {
                    words[10] = ratio.to_bits();
                    one(&words);
                }
            }
        }
    }
    for kind in [0, 1] {
        for at in (2..9).chain(10..16) {
            for float in SPECIAL {
                let mut words = plain(2, 0, start, end, kind);
                words[at] = float.to_bits();
                one(&words);
            }
        }
        for length in 0..16 {
            one(&plain(3, 1, start, end, kind)[..length]);
        }
    }
    let mut seed = Seed::named(plan.seed, name);
    for _ in 0..plan.seeded() {
        let words = any(&mut seed);
        let length = cut(&mut seed, &words);
        one(&words[..length]);
    }
    tally
}

pub fn new(proved: &Leaves, plan: &Plan) -> Tally {
    traces("trace_new_word", plan, |t| {
        let g = given(t);
        let new = Trace::new(g.start, g.start_ratio, g.end, g.boundary, g.contents);
        let r = trace_words(new.expect("a contents code"));
        let f = |w| unsafe { (proved.trace_new)(t.as_ptr(), t.len(), w) };
        words(f, |w| word(&r, w), &TRACE_WORDS)
    })
}

pub fn start_point(proved: &Leaves, plan: &Plan) -> Tally {
    traces("trace_start_point", plan, |t| {
        let r = given(t).start_point();
        let f = |p| bits(unsafe { (proved.trace_start_point)(t.as_ptr(), t.len(), p) });
        words(f, |p| bits(part(r, p)), &PARTS)
    })
}

pub fn end_point(proved: &Leaves, plan: &Plan) -> Tally {
    traces("trace_end_point", plan, |t| {
        let r = given(t).end_point();
        let f = |p| bits(unsafe { (proved.trace_end_point)(t.as_ptr(), t.len(), p) });
        words(f, |p| bits(part(r, p)), &PARTS)
    })
}

pub fn ratio(proved: &Leaves, plan: &Plan) -> Tally {
    traces("trace_ratio", plan, |t| {
        let r = bits(given(t).ratio());
        words(|_| bits(unsafe { (proved.trace_ratio)(t.as_ptr(), t.len()) }), |_| r, &[0])
    })
}

/// A question to a trace.
type Asked = unsafe extern "C" fn(*const u32, usize) -> bool;

fn asked(name: &str, plan: &Plan, proved: Asked, rust: fn(Trace) -> bool) -> Tally {
    traces(name, plan, |t| {
        let r = rust(given(t)) as u32;
        words(|_| unsafe { proved(t.as_ptr(), t.len()) } as u32, |_| r, &[0])
    })
}

pub fn is_terminal(proved: &Leaves, plan: &Plan) -> Tally {
    asked("trace_is_terminal", plan, proved.trace_is_terminal, Trace::is_terminal)
}

pub fn all_solid(proved: &Leaves, plan: &Plan) -> Tally {
    asked("trace_all_solid", plan, proved.trace_all_solid, Trace::all_solid)
}

pub fn start_solid(proved: &Leaves, plan: &Plan) -> Tally {
    asked("trace_start_solid", plan, proved.trace_start_solid, Trace::start_solid)
}

pub fn in_open(proved: &Leaves, plan: &Plan) -> Tally {
    asked("trace_in_open", plan, proved.trace_in_open, Trace::in_open)
}

pub fn in_water(proved: &Leaves, plan: &Plan) -> Tally {
    asked("trace_in_water", plan, proved.trace_in_water, Trace::in_water)
}

/// Every combination of the core floats in a point and the offset, then seeded traces.
pub fn adjust(proved: &Leaves, plan: &Plan) -> Tally {
    let mut tally = Tally::new("trace_adjust_word");
    let mut one = |t: &[u32], o: Vector| {
        let r = trace_words(given(t).adjust(o));
        let f = |w| unsafe { (proved.trace_adjust)(t.as_ptr(), t.len(), o[0], o[1], o[2], w) };
        let differs = words(f, |w| word(&r, w), &TRACE_WORDS);
        tally.count(differs.is_none(), || format!("{t:x?} by {o:?}: {}", differs.unwrap()));
    };
    combinations::<6>(|v| {
        let (start, end) = ([v[0], v[1], v[2]], [v[1], v[2], v[0]]);
        one(&plain(2, 1, start, end, 1), [v[3], v[4], v[5]]);
    });
    let mut seed = Seed::named(plan.seed, "trace_adjust_word");
    for _ in 0..plan.seeded() {
        let t = any(&mut seed);
        let mut offset = cases::vector(&mut seed);
        if seed.once_in(8) {
            // back to the origin, most often
            offset = given(&t).start.map(|x| -x);
        }
        let length = cut(&mut seed, &t);
        one(&t[..length], offset);
    }
    tally
}

/// Every two contents, flags and kinds of end with every two core floats where the traces meet, then
/// seeded ones, which meet in most.
pub fn join(proved: &Leaves, plan: &Plan) -> Tally {
    let mut tally = Tally::new("trace_join_word");
    let mut refused = 0;
    let mut one = |a: &[u32], b: &[u32]| {
        let r = joined_words(given(a).join(given(b)));
        refused += (r[0] == 19) as u64;
        let f = |w| unsafe { (proved.trace_join)(a.as_ptr(), a.len(), b.as_ptr(), b.len(), w) };
        let differs = words(f, |w| word(&r, w), &JOINED_WORDS);
        tally.count(differs.is_none(), || format!("{a:x?} and {b:x?}: {}", differs.unwrap()));
    };
    let (from, to) = ([1.0, -2.0, 4.0], [3.0, 5.0, -7.0]);
    for codes in 0..169 {
        let code = |n: usize| CODES.get(n).copied().unwrap_or(7);
        for bit in 0..16 {
            for (at, (x, y)) in CORE.iter().flat_map(|x| CORE.map(|y| (*x, y))).enumerate() {
                let (mut end, mut start) = ([0.5, 1.5, 2.5], [0.5, 1.5, 2.5]);
                end[at % 3] = x;
                start[at % 3] = y;
                let first = plain(code(codes / 13), bit & 1, from, end, bit >> 1 & 1);
                let second = plain(code(codes % 13), bit >> 2 & 1, start, to, bit >> 3);
                one(&first, &second);
            }
        }
    }
    let mut seed = Seed::named(plan.seed, "trace_join_word");
    for _ in 0..plan.seeded() {
        let (a, mut b) = (any(&mut seed), any(&mut seed));
        if !seed.once_in(6) {
            b[2..5].copy_from_slice(&a[6..9]);
            if seed.once_in(8) {
                let at = seed.below(3) as usize;
                b[2 + at] = cases::nudged(&mut seed, f32::from_bits(a[6 + at]), 1).to_bits();
            }
        }
        let lengths = (cut(&mut seed, &a), cut(&mut seed, &b));
        one(&a[..lengths.0], &b[..lengths.1]);
    }
    tally.refused = refused;
    tally
}

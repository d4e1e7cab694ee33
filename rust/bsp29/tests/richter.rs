//! What richter answers of planes and traces, stored in `richter.txt`, and what this crate answers. Every
//! NaN counts as one.

use bsp29::{Contents, Plane, PlaneKind, Side, Trace, TraceEnd};

fn bits(x: f32) -> u32 {
    if x.is_nan() {
        f32::NAN.to_bits()
    } else {
        x.to_bits()
    }
}

fn point(words: &[u32]) -> [f32; 3] {
    [0, 1, 2].map(|at| f32::from_bits(words[at]))
}

/// The plane of five words: kind, normal, distance.
fn plane(words: &[u32]) -> Plane {
    let kinds = [PlaneKind::X, PlaneKind::Y, PlaneKind::Z, PlaneKind::Normal];
    Plane {
        kind: kinds[words[0] as usize],
        normal: point(&words[1..]),
        dist: f32::from_bits(words[4]),
    }
}

/// The trace of sixteen words: contents, started solid, start and its ratio, end, whether it is at a plane,
/// the ratio there and the plane.
fn trace(words: &[u32]) -> Trace {
    let ratio = f32::from_bits(words[10]);
    Trace {
        contents: Contents::from_code(words[0]).unwrap(),
        start_solid: words[1] != 0,
        start: point(&words[2..]),
        start_ratio: f32::from_bits(words[5]),
        end: point(&words[6..]),
        kind: match words[9] {
            0 => TraceEnd::Terminal,
            _ => TraceEnd::Boundary { ratio, plane: plane(&words[11..]) },
        },
        visits: 7,
    }
}

fn words(trace: &Trace) -> Vec<u32> {
    let mut words = vec![trace.contents.code(), u32::from(trace.start_solid)];
    words.extend(trace.start.map(bits));
    words.push(bits(trace.start_ratio));
    words.extend(trace.end.map(bits));
    match trace.kind {
        TraceEnd::Terminal => words.extend([0; 7]),
        TraceEnd::Boundary { ratio, plane } => {
            words.extend([1, bits(ratio), plane.kind as u32]);
            words.extend(plane.normal.map(bits));
            words.push(bits(plane.dist));
        }
    }
    words
}

fn asked(trace: &Trace) -> Vec<u32> {
    let flags = [
        trace.is_terminal(),
        trace.all_solid(),
        trace.start_solid,
        trace.in_open(),
        trace.in_water(),
    ];
    [bits(trace.ratio())].into_iter().chain(flags.map(u32::from)).collect()
}

/// The answer to a line.
fn answer(question: &str, given: &[u32]) -> Vec<u32> {
    match question {
        "plane" => {
            let (plane, point) = (plane(given), point(&given[5..]));
            let side = u32::from(plane.point_side(point) == Side::Back);
            vec![bits(plane.point_dist(point)), side]
        }
        "adjust" => words(&trace(given).adjust(point(&given[16..]))),
        "asked" => asked(&trace(given)),
        "join" => match trace(given).join(trace(&given[16..])) {
            Ok(joined) => {
                assert_eq!(joined.visits, 14);
                words(&joined)
            }
            Err(refusal) => vec![refusal.number()],
        },
        other => panic!("{other}"),
    }
}

#[test]
fn stored_answers() {
    let numbers = |text: &str| -> Vec<u32> {
        text.split_whitespace().map(|word| u32::from_str_radix(word, 16).unwrap()).collect()
    };
    let stored = include_str!("richter.txt");
    let (mut lines, mut refused) = (0, 0);
    for line in stored.lines().filter(|line| !line.starts_with('#')) {
        let (left, right) = line.split_once(" =").unwrap();
        let (question, given) = left.split_once(' ').unwrap();
        assert_eq!(answer(question, &numbers(given)), numbers(right), "{line}");
        lines += 1;
        refused += usize::from(right == " 13");
    }
    assert!(lines == 390 && refused > 30, "{lines} {refused}");
}

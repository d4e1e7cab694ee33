//! Joining two traces: the program on paper beside the published Rust. `join` is no call of the C
//! interface; the traces that the calls answer are joined by it, and 19 is given by it alone. The
//! proved `join` is compared in `leaves`.

use maps::{cases, Seed};

use crate::calls::words;
use crate::calls::Calls;
use crate::paper::{plane, walk};
use crate::report::board::{Board, Plan, Side};

pub fn compare(_: &Calls, plan: &Plan) -> Board {
    let mut board = Board::new();
    for (case, mut seed) in plan.seeds("joins") {
        let first = trace(&mut seed);
        let mut second = trace(&mut seed);
        if !seed.once_in(6) {
            second.start = first.end;
        }
        let rust = first.join(second).map_err(|refusal| words::number(refusal).expect("a number"));
        let paper = on_paper(&first).join(on_paper(&second));
        let rust = rust.map(|trace| words::trace(trace, 0));
        let paper = paper.map(|trace| trace.words(0));
        let number = *paper.as_ref().err().unwrap_or(&0);
        let difference = (rust != paper).then(|| format!("paper {paper:x?}, Rust {rust:x?}"));
        let input = || (0, format!("case {case}, {first:?} and {second:?}"));
        board.count("join (on paper)", (number, Side::Rust), difference, input);
    }
    board
}

/// Any trace, its end a boundary in most.
fn trace(seed: &mut Seed) -> richter::Trace {
    let plane = cases::plane(seed);
    let plane = richter::Plane::held(plane.kind, plane.normal, plane.dist);
    let boundary = (!seed.once_in(5)).then(|| (cases::float(seed), plane));
    richter::Trace {
        start: cases::vector(seed),
        start_ratio: cases::float(seed),
        end: cases::vector(seed),
        boundary,
        contents: [1, 2, 2, 3, 6][seed.below(5) as usize],
        start_solid: seed.once_in(2),
    }
}

fn on_paper(trace: &richter::Trace) -> walk::Trace {
    let plane = |p: richter::Plane| plane::Plane {
        alignment: match p.kind {
            0..=2 => plane::Alignment::Axis(p.kind as usize),
            _ => plane::Alignment::Normal(p.normal),
        },
        dist: p.dist,
    };
    walk::Trace {
        start: trace.start,
        start_ratio: trace.start_ratio,
        end: trace.end,
        boundary: trace.boundary.map(|(ratio, p)| (ratio, plane(p))),
        contents: trace.contents as u64,
        start_solid: trace.start_solid,
    }
}

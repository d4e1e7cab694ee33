//! Every comparison of the calls, one after the other and over again with further seeds, until so many calls
//! were compared; then which refusals each call gave (`coverage`).

use crate::calls::Calls;
use crate::modes::{
    accept, bodies, boxes, hand_made, joins, line, loads, made, order, place, points, pvs, records,
    sky, team, textures, tree, walks,
};
use crate::report::board::{Board, Plan};
use crate::report::coverage;

type Mode = fn(&Calls, &Plan) -> Board;

/// The modes, and the cases of each in a round.
const MODES: [(Mode, u64); 18] = [
    (records::compare, 500),
    (hand_made::compare, 1_000),
    (walks::compare, 1_000),
    (tree::compare, 2_000),
    (boxes::compare, 500),
    (bodies::compare, 500),
    (accept::compare, 500),
    (points::compare, 500),
    (line::compare, 500),
    (order::compare, 500),
    (textures::compare, 2_000),
    (pvs::compare, 2_000),
    (team::compare, 500),
    (loads::compare, 2_000),
    (place::compare, 500),
    (made::compare, 500),
    (sky::compare, 500),
    (joins::compare, 10_000),
];

/// `plan.cases` is the number of calls. False if anything differed, if a call gave a refusal that it
/// cannot give, or, unless the run is a quick one, if one that it can give was not met.
pub fn run(plan: &Plan) -> bool {
    let board = compare(&Calls::linked(), plan);
    let equal = board.print();
    let faults = coverage::print(&board);
    let differ = if equal { "0 differ" } else { "some differ" };
    println!("{} calls of the library, {differ}", board.calls());
    equal && faults.impossible.is_empty() && (plan.quick || faults.unmet.is_empty())
}

/// Rounds of every mode until the calls are enough.
pub fn compare(calls: &Calls, plan: &Plan) -> Board {
    let mut board = Board::new();
    for round in 0.. {
        for (mode, cases) in MODES {
            board.join(mode(calls, &Plan { from: round * cases, cases, ..plan.clone() }));
        }
        if board.calls() >= plan.cases {
            break;
        }
    }
    board
}

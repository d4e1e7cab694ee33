//! Runs program.rs on richter's modules and on bsp29: the same moves on the same maps, whether every answer
//! is the same, and the time of both.
//!
//!     swap MAP..
//!
//! Beside the maps named it takes one that it makes, a tree of 10,000 nodes that divides a box evenly, so
//! that the times are also those of a map of a usual size. It ends with status 1 if an answer differs.

mod time;

/// richter as its server has it.
mod on_richter {
    use cgmath::Vector3;
    use richter::common::bsp::{load, BspCollisionHull, BspError, BspLeafContents, BspModel};
    use richter::common::model::{Model, ModelKind};
    use richter::server::world::{Trace, TraceEndKind};
    use std::io::Cursor;

    include!("program.rs");
}

/// The same program text on bsp29.
mod on_bsp29 {
    use cgmath::Vector3;
    use std::io::Cursor;
    use swap::swapped::common::bsp::{load, BspCollisionHull, BspError, BspLeafContents, BspModel};
    use swap::swapped::common::model::{Model, ModelKind};
    use swap::swapped::server::world::{Trace, TraceEndKind};

    include!("program.rs");
}

use cgmath::Vector3;
use maps::world::{tables, SIDE};
use maps::{Layout, Seed};
use std::process::ExitCode;
use time::Times;

/// Moves in a map, and the things that stand in it: a door where the map has a second model, and boxes.
struct Case {
    name: String,
    file: Vec<u8>,
    door: bool,
    side: f32,
}

/// The sizes of what moves: a point, a player, something larger.
const SIZES: [([f32; 3], [f32; 3]); 3] = [
    ([0.0; 3], [0.0; 3]),
    ([-16.0, -16.0, -24.0], [16.0, 16.0, 32.0]),
    ([-32.0, -32.0, -24.0], [32.0, 32.0, 64.0]),
];

/// How many moves are asked of each map, and how many turns the time is taken of.
const MOVES: u64 = 20_000;
const TURNS: usize = 30;

fn point(seed: &mut Seed, side: f32) -> Vector3<f32> {
    let mut one = |side: f32| (seed.below(1 << 20) as f32 / (1 << 19) as f32 - 1.0) * side;
    Vector3::new(one(side), one(side), one(side / 2.0))
}

/// The things and moves of a case, in the types of one of the two modules.
macro_rules! world {
    ($module:ident, $case:expr) => {{
        use $module::{Move, Shape, Thing, World};
        let mut seed = Seed::named(28, &$case.name);
        let at = Vector3::new(0.0, 0.0, 0.0);
        let mut things = vec![Thing { origin: at, shape: Shape::Brush(0) }];
        if $case.door {
            things.push(Thing { origin: Vector3::new(0.0, 40.0, 8.0), shape: Shape::Brush(1) });
        }
        for _ in 0..6 {
            let (min, max) = SIZES[1];
            let shape = Shape::Box(Vector3::from(min), Vector3::from(max));
            things.push(Thing { origin: point(&mut seed, $case.side), shape });
        }
        let moves: Vec<Move> = (0..MOVES)
            .map(|number| {
                let (min, max) = SIZES[number as usize % 3];
                Move {
                    min: Vector3::from(min),
                    max: Vector3::from(max),
                    start: point(&mut seed, $case.side),
                    end: point(&mut seed, $case.side),
                }
            })
            .collect();
        (World::load($case.file.clone(), things), moves)
    }};
}

/// The same answers to every move? And the times of both, by turns.
fn run(case: &Case) -> bool {
    let (theirs, their_moves) = world!(on_richter, case);
    let (ours, our_moves) = world!(on_bsp29, case);
    let (theirs, ours) = match (theirs, ours) {
        (Ok(theirs), Ok(ours)) => (theirs, ours),
        (theirs, ours) => {
            let say = |error: Option<String>| {
                error.map_or("loads it".into(), |e| format!("refuses it: {e}"))
            };
            println!("{}: richter {}; bsp29 {}", case.name, say(theirs.err()), say(ours.err()));
            return true;
        }
    };
    let mut differ = usize::from(theirs.summary() != ours.summary());
    let (mut numbers, mut met) = (0, 0);
    for (their, our) in their_moves.iter().zip(&our_moves) {
        let (left, right) = (theirs.answers(their), ours.answers(our));
        differ += usize::from(left != right);
        numbers += left.len();
        met += usize::from(left.get(7).is_some_and(|thing| *thing != u64::MAX));
    }
    println!(
        "{}: {MOVES} moves, {met} met something, {numbers} numbers, {differ} moves differ",
        case.name
    );

    let mut times = Times::new(["collide", "contents", "leaf and pvs"], MOVES);
    for _ in 0..TURNS {
        times.theirs(0, || their_moves.iter().filter(|m| theirs.collide(m).is_ok()).count());
        times.ours(0, || our_moves.iter().filter(|m| ours.collide(m).is_ok()).count());
        times.theirs(1, || their_moves.iter().filter(|m| theirs.contents(m.end).is_ok()).count());
        times.ours(1, || our_moves.iter().filter(|m| ours.contents(m.end).is_ok()).count());
        times.theirs(2, || their_moves.iter().map(|m| theirs.visible(m.end).1.len()).sum());
        times.ours(2, || our_moves.iter().map(|m| ours.visible(m.end).1.len()).sum());
    }
    times.print();
    differ == 0
}

fn main() -> ExitCode {
    let mut cases = Vec::new();
    for path in std::env::args().skip(1) {
        let file = match std::fs::read(&path) {
            Ok(file) => file,
            Err(error) => {
                eprintln!("{path}: {error}");
                return ExitCode::FAILURE;
            }
        };
        let models = bsp29::Map::load(&file).map_or(0, |map| map.models().len());
        cases.push(Case { name: path, file, door: models > 1, side: 120.0 });
    }
    let world = maps::world::World {
        nodes: 10_000,
        slanted: 10,
        visibility: 200_000,
        lightmaps: 0,
        faces: 500,
    };
    let file = tables(&mut Seed::named(28, "world"), &world).file(&Layout::plain());
    cases.push(Case { name: "a map of 10,000 nodes".into(), file, door: false, side: SIDE });
    let differ = cases.iter().filter(|case| !run(case)).count();
    ExitCode::from(u8::from(differ > 0))
}

//! Loads a map and traces a segment through a hull of its world.
//!
//!     trace MAP HULL X Y Z X Y Z
//!
//! It prints what is at the start, what can be seen from there, what the segment meets and the nodes
//! entered. Where a call is refused it says why and ends with status 1. `examples/run` builds and runs
//! it.

use bsp29::{Map, Refusal, Trace, TraceEnd};
use std::process::ExitCode;

/// The same digits as the program in C prints.
fn show(floats: &[f32]) -> String {
    let one = |x: &f32| if x.is_nan() { " nan".to_string() } else { format!(" {x:.6}") };
    floats.iter().map(one).collect()
}

fn print_list(name: &str, list: &[u32]) {
    let numbers: String = list.iter().map(|number| format!(" {number}")).collect();
    println!("{name}:{numbers}");
}

fn print_trace(trace: &Trace) {
    println!(
        "trace: through {:?}, started solid {}, visits {}",
        trace.contents,
        u8::from(trace.start_solid),
        trace.visits
    );
    println!("from:{} ratio{}", show(&trace.start), show(&[trace.start_ratio]));
    match trace.kind {
        TraceEnd::Terminal => println!("to:{} terminal", show(&trace.end)),
        TraceEnd::Boundary { ratio, plane } => {
            println!("to:{} boundary ratio{}", show(&trace.end), show(&[ratio]));
            let kind = plane.kind as u8;
            println!(
                "plane: kind {kind} normal{} dist{}",
                show(&plane.normal),
                show(&[plane.dist])
            );
        }
    }
}

fn run(file: &[u8], hull: usize, start: [f32; 3], end: [f32; 3]) -> Result<(), Refusal> {
    let map = Map::load(file)?;

    // from a root that passed, every walk and trace is answered
    let hull = map.hull(0, hull)?;
    let height = map.tree_check(hull.table(), hull.root())?;
    let nodes = map.hull_check(&hull)?.nodes();
    println!("hull: table {:?} root {} nodes {nodes} height {height}", hull.table(), hull.root());

    let (contents, visits) = map.contents(&hull, start)?;
    let (leaf, leaf_visits) = map.find_leaf(start)?;
    println!("start: {contents:?} visits {visits}, leaf {leaf} visits {leaf_visits}");
    let seen = map.visible_leaves(leaf, map.models().get(0)?.leaf_count + 1)?;
    print_list("visible leaves", &seen);

    print_trace(&map.trace(&hull, start, end)?);
    print_list("nodes to the contents", &map.contents_nodes(&hull, start)?);
    print_list("nodes to the leaf", &map.find_leaf_nodes(0, start)?);
    print_list("nodes of the trace", &map.trace_nodes(&hull, start, end)?);
    Ok(())
}

/// The hull and the segment of the arguments.
fn arguments(words: &[String]) -> Option<(usize, [f32; 3], [f32; 3])> {
    let hull = words[0].parse().ok()?;
    let floats: Vec<f32> = words[1..].iter().map_while(|word| word.parse().ok()).collect();
    let start = floats.get(..3)?.try_into().ok()?;
    let end = floats.get(3..6)?.try_into().ok()?;
    Some((hull, start, end))
}

fn main() -> ExitCode {
    let words: Vec<String> = std::env::args().skip(1).collect();
    let asked = if words.len() == 8 { arguments(&words[1..]) } else { None };
    let Some((hull, start, end)) = asked else {
        eprintln!("usage: trace MAP HULL X Y Z X Y Z");
        return ExitCode::from(2);
    };
    let file = match std::fs::read(&words[0]) {
        Ok(file) => file,
        Err(error) => {
            eprintln!("{}: {error}", words[0]);
            return ExitCode::FAILURE;
        }
    };
    match run(&file, hull, start, end) {
        Ok(()) => ExitCode::SUCCESS,
        Err(refusal) => {
            eprintln!("refused {}: {refusal}", refusal.number());
            ExitCode::FAILURE
        }
    }
}

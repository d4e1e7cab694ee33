//! Asks one kind of question over and over, so that its instructions can be counted:
//!
//!     cost MAP QUESTION TIMES
//!
//! QUESTION is contents, leaf, trace, line, visible, plane or points. Two counts tell the instructions of
//! one question: `valgrind --tool=callgrind target/release/examples/cost MAP contents 3000`, less the same
//! with 1000, divided by 2,000.

use bsp29::{Map, Refusal};
use std::process::ExitCode;

/// Something of each answer, added up.
fn run(file: &[u8], question: &str, times: usize) -> Result<u64, Refusal> {
    let map = Map::load(file)?;
    let hull = map.hull(0, 0)?;
    let (planes, leaves) = (map.planes().len().max(1), map.leaves().len().max(2));
    let mut sum = 0;
    for i in 0..times {
        let p = [(i % 200) as f32 - 100.0, (i % 90) as f32 - 45.0, (i % 60) as f32 - 30.0];
        let q = [p[1], p[2], p[0]];
        sum += match question {
            "contents" => map.contents(&hull, p)?.1,
            "leaf" => map.find_leaf(p)?.1,
            "trace" => map.trace(&hull, p, q)?.visits,
            "line" => u64::from(map.trace_line(&hull, p, q)?.end[0].to_bits()),
            "visible" => map.visible_leaves(1 + i % (leaves - 1), leaves)?.len() as u64,
            "plane" => u64::from(map.planes().get(i % planes)?.dist.to_bits()),
            _ => map.contents_at_points(&hull, &[p; 64])?.1,
        };
    }
    Ok(sum)
}

fn main() -> ExitCode {
    let words: Vec<String> = std::env::args().skip(1).collect();
    let [path, question, times] = words.as_slice() else {
        eprintln!("usage: cost MAP QUESTION TIMES");
        return ExitCode::from(2);
    };
    let (Ok(file), Ok(times)) = (std::fs::read(path), times.parse()) else {
        eprintln!("usage: cost MAP QUESTION TIMES");
        return ExitCode::from(2);
    };
    match run(&file, question, times) {
        Ok(sum) => {
            println!("{sum}");
            ExitCode::SUCCESS
        }
        Err(refusal) => {
            eprintln!("refused {}: {refusal}", refusal.number());
            ExitCode::FAILURE
        }
    }
}

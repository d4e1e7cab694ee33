//! Which refusals of document 01 each call can give, and in how many cases it gave them where it
//! should.

use crate::report::board::{Agreed, Board, Line};

/// The numbers of document 01 and of the requests of document 02.
pub const NUMBERS: [u32; 32] = [
    1, 2, 3, 4, 5, 6, 7, 8, 9, 10, 11, 12, 13, 14, 15, 19, 20, 21, 22, 23, 24, 25, 26, 27, 28, 29,
    30, 31, 32, 33, 34, 35,
];

/// A call and the numbers that it can give. Those that it cannot:
/// - 1 to 15 are refusals of loading. A record read later that would be 1 or 10, or in a face's
///   extents 11, is 23; 12 is not tested again.
/// - 19 is join's, which is no call.
/// - 20 needs a number that the caller names: none in loading, entities, a box, body sizes, a leaf
///   lookup (its root outside the table is 30).
/// - 21 is a box's alone.
/// - 22 is every call's but the version's: each is lent a list.
/// - 23 needs bytes and a map record that the caller made: none in loading, counts, a box, body sizes.
/// - 30 needs a walk: loading says 11 of a leaf outside its table.
/// - 31 bounds walks, 32 bounds traces and the tree check; neither the other.
/// - 26 and 27 are those of a file of body sizes.
/// - 25 is a team's.
/// - 24 is that of many points, 28 that of a box whose contents are asked.
/// - 29 is that of a made-up map.
/// - 35 is acceptance's.
/// - 33 is visibility's, 34 the tree check's and that of the calls which make it.
const CAN: [(&str, &[u32]); 32] = [
    ("bsp_load", &[1, 2, 3, 4, 5, 6, 7, 8, 9, 10, 11, 12, 13, 14, 15, 22]),
    ("bsp_record", &[20, 22, 23]),
    ("bsp_count", &[20, 22]),
    ("bsp_entities", &[22, 23]),
    ("bsp_hull", &[20, 22, 23]),
    ("bsp_body_sizes", &[22, 26, 27]),
    // as `bsp_hull`: sizes that a caller made by hand are taken as they stand
    ("bsp_hull_sized", &[20, 22, 23]),
    ("bsp_box", &[21, 22]),
    // 20 where the hull's words name no table
    ("bsp_contents", &[20, 22, 23, 30, 31]),
    ("bsp_find_leaf", &[22, 23, 30, 31]),
    ("bsp_trace", &[20, 22, 23, 30, 32]),
    // the lists of nodes: as the call without a list; 22 also last, for a list too short
    ("bsp_contents_nodes", &[20, 22, 23, 30, 31]),
    ("bsp_find_leaf_nodes", &[22, 23, 30, 31]),
    ("bsp_trace_nodes", &[20, 22, 23, 30, 32]),
    ("bsp_pvs", &[20, 22, 23, 33]),
    ("bsp_pvs_team", &[20, 22, 23, 25, 33]),
    // 20 where the number names no table
    ("bsp_tree_check", &[20, 22, 23, 30, 32, 34]),
    // as the tree check; 20 where the hull's words name no table
    ("bsp_hull_check", &[20, 22, 23, 30, 32, 34]),
    // the bounds, then as the tree check, then 23 as planes and leaves are read
    ("bsp_contents_box", &[20, 22, 23, 28, 30, 32, 34]),
    // references and rows are 35, a tree's refusals its own
    ("bsp_accept", &[22, 23, 30, 32, 34, 35]),
    // 24 first, then as the contents of one point
    ("bsp_contents_points", &[20, 22, 23, 24, 30, 31]),
    // both its descents; 20 where the hull's words name no table
    ("bsp_trace_line", &[20, 22, 23, 30, 32]),
    // as the tree check; then 23 for a leaf's record, 22 for the table
    ("bsp_order", &[20, 22, 23, 30, 32, 34]),
    // a lent table: no number names it, so 20 is none of theirs
    ("bsp_order_contents", &[22, 23, 30, 31]),
    ("bsp_order_trace", &[22, 23, 30, 32]),
    ("bsp_texture_frame", &[20, 22, 23]),
    ("bsp_texture_static", &[20, 22, 23]),
    ("bsp_texture", &[20, 22, 23]),
    // of all textures: no number names one
    ("bsp_texture_numbers", &[22, 23]),
    // 29 first of all
    ("bsp_made_up", &[22, 29]),
    // a refusal of loading is its answer
    ("bsp_load_place", &[22]),
    ("bsp_version", &[]),
];

/// What is wrong with the cells of a table.
#[derive(Debug, Default, PartialEq)]
pub struct Faults {
    /// Numbers that a call can give and that were not met.
    pub unmet: Vec<String>,
    /// Numbers that it cannot give and did.
    pub impossible: Vec<String>,
}

fn line_of<'a>(board: &'a Board, call: &str) -> Option<&'a Line> {
    board.lines().iter().find(|line| line.is_call() && line.name == call)
}

/// The faults of every call.
pub fn faults(board: &Board) -> Faults {
    let mut faults = Faults::default();
    for (call, can) in CAN {
        let line = line_of(board, call);
        for number in NUMBERS {
            let met = line.and_then(|line| line.agreed.get(&number)).is_some();
            let given = line.and_then(|line| line.refusals.get(&number)).is_some();
            match can.contains(&number) {
                true if !met => faults.unmet.push(format!("{call} can give {number}: not met")),
                false if given => faults.impossible.push(format!("{call} cannot give {number}")),
                _ => {}
            }
        }
    }
    faults
}

/// Prints both tables and what is wrong with them.
pub fn print(board: &Board) -> Faults {
    println!("\ncases of each refusal in which the call gave what the Rust or document 01 says");
    table(board, |agreed| agreed.rust + agreed.paper);
    println!("\nof these where the Rust itself said so");
    table(board, |agreed| agreed.rust);
    println!("\n19 is given by join, which is no call: the line `join (on paper)` has the program");
    println!("on paper beside the Rust, crates/phys the equation of the proved one.");
    let faults = faults(board);
    for fault in &faults.unmet {
        println!("{fault}");
    }
    for fault in &faults.impossible {
        println!("{fault}, and did");
    }
    faults
}

/// A table in the form of a text with columns between bars. `-`: the call cannot give the number.
fn table(board: &Board, count: impl Fn(&Agreed) -> u64) {
    let heads: Vec<String> = NUMBERS.iter().map(|number| number.to_string()).collect();
    println!("| call | answers | {} |", heads.join(" | "));
    println!("|{}", "---|".repeat(NUMBERS.len() + 2));
    for (call, can) in CAN {
        let line = line_of(board, call);
        let times = |number: u32| {
            line.and_then(|line| line.agreed.get(&number)).map_or(0, &count).to_string()
        };
        let cells = NUMBERS.iter().map(|number| match can.contains(number) {
            true => times(*number),
            false => "-".to_string(),
        });
        println!("| `{call}` | {} | {} |", times(0), cells.collect::<Vec<String>>().join(" | "));
    }
}

//! A hull with the size of its tree (document 02, note 8): refusals and marks beside the tree check on
//! paper, the number of nodes and the height beside a tree that is gathered without regard to any
//! order, from the file's records and, where the Rust has the hull, from the Rust's own nodes; the
//! other words beside the Rust's.

use std::collections::BTreeSet;

use maps::Seed;
use richter::{Child, Hull};

use crate::calls::asked::Asked;
use crate::calls::words::{self, Words};
use crate::calls::{Calls, HULL_ASKED, HULL_WORDS};
use crate::paper::tree;
use crate::report::board::{shown, Board, Side};

/// What the lent list holds before a call.
const FILL: u64 = 7;

/// The size of a tree by the Rust's nodes: the least set that holds the root and the children of each
/// of its nodes, and the longest way down, of a root that passed the check.
fn rust_size(hull: &Hull) -> [u64; 2] {
    let nodes = hull.nodes();
    let mut tree = BTreeSet::new();
    let mut open = vec![(hull.root(), 1)];
    let mut height = 0;
    while let Some((node, depth)) = open.pop() {
        tree.insert(node);
        height = height.max(depth);
        open.extend(nodes[node].children.iter().filter_map(|child| match child {
            Child::Node(next) => Some((*next, depth + 1)),
            Child::Contents(_) => None,
        }));
    }
    [tree.len() as u64, height]
}

/// The words by the Rust where the check on paper passed: its own, and the size by its nodes.
fn by_rust(hull: &[u64], rust: &Hull, paper: &Words) -> Words {
    let mut words = match paper {
        Err(refusal) => return Err(*refusal),
        Ok(_) => words::old_hull(hull[0], rust),
    };
    words.extend(if hull[0] == 2 { [0, 0] } else { rust_size(rust) });
    Ok(words)
}

/// `bsp_hull_check` of a hull's words with these marks, beside the Rust's hull where it made it.
pub fn ask(board: &mut Board, asked: &Asked, hull: &[u64], rust: Option<&Hull>, marks: &[u8]) {
    let Asked { calls, file, map, .. } = *asked;
    let input =
        || asked.input(format!("hull {}, marks {}, map {map:?}", shown(&hull), shown(&marks)));
    let mut wanted = marks.to_vec();
    let paper = tree::hull_check(&asked.paper(), hull, &mut wanted);
    let (expected, side) = match rust {
        None => (paper, Side::Paper),
        Some(rust) => {
            let found = by_rust(hull, rust, &paper);
            let difference = (found != paper)
                .then(|| format!("paper {}, Rust {}", shown(&paper), shown(&found)));
            board.count_paper("bsp_hull_check", difference, input);
            let side = if found.is_ok() { Side::Rust } else { Side::Paper };
            (found, side)
        }
    };
    let mut left = marks.to_vec();
    let mut out = [FILL; HULL_WORDS + 2];
    let refusal = (calls.hull_check)(file, map, hull, &mut left, &mut out);
    let mut words = [FILL; HULL_WORDS + 2];
    if let Ok(found) = &expected {
        words[..found.len()].copy_from_slice(found);
    }
    let equal = refusal == *expected.as_ref().err().unwrap_or(&0) && out == words && left == wanted;
    let difference = (!equal).then(|| {
        let same = if left == wanted { "as expected" } else { "differ" };
        format!("answers {refusal} {}, marks {same}, expected {}", shown(&out), shown(&expected))
    });
    board.count("bsp_hull_check", (refusal, side), difference, input);
}

/// A map record, a hull or an answer's list that is too short is 22, before a table that is none; that
/// is 20, before marks that are too short.
pub fn short_lists(
    board: &mut Board,
    calls: &Calls,
    seed: &mut Seed,
    (file, map): (&[u8], &[u32]),
    marks: &[u8],
) {
    let table = seed.below(5);
    let hull = crate::modes::walks::hull_words(seed, table, 0);
    let few = |seed: &mut Seed, full: usize| seed.below(full as u64) as usize;
    let lent = [
        (few(seed, 31), HULL_WORDS, HULL_WORDS),
        (31, few(seed, HULL_ASKED), HULL_WORDS),
        (31, HULL_ASKED, few(seed, HULL_WORDS)),
    ];
    for (map_words, hull_words, out_words) in lent {
        let (mut left, mut out) = (marks.to_vec(), vec![FILL; out_words]);
        let (map, hull) = (&map[..map_words], &hull[..hull_words]);
        let refusal = (calls.hull_check)(file, map, hull, &mut left, &mut out);
        let equal = refusal == 22 && left == marks && out.iter().all(|word| *word == FILL);
        let difference = (!equal).then(|| format!("answers {refusal}, expected 22"));
        board.count("bsp_hull_check", (refusal, Side::Paper), difference, || {
            let text = format!("{map_words} words of a map, {hull_words} of a hull, {out_words}");
            (map_words, format!("{text} of the answer, hull {}", shown(&hull)))
        });
    }
}

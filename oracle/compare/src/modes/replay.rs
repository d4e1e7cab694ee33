//! Reads a sample of the Rust's answers back and asks the calls the same (`sample` says its form).

use crate::calls::words::Words;
use crate::calls::{Calls, HULL_ASKED};
use crate::modes::sample::*;
use crate::report::board::{Board, Side};

/// The call that a kind names.
pub fn name(kind: u64) -> &'static str {
    match kind {
        LOAD => "bsp_load",
        RECORD => "bsp_record",
        COUNT => "bsp_count",
        ENTITIES => "bsp_entities",
        HULL => "bsp_hull",
        BOX => "bsp_box",
        CONTENTS => "bsp_contents",
        FIND_LEAF => "bsp_find_leaf",
        TRACE => "bsp_trace",
        PVS => "bsp_pvs",
        CONTENTS_NODES => "bsp_contents_nodes",
        FIND_LEAF_NODES => "bsp_find_leaf_nodes",
        TRACE_NODES => "bsp_trace_nodes",
        _ => panic!("no such kind: {kind}"),
    }
}

/// The file, map record and hull that the cases so far have set.
struct Replay<'a> {
    calls: &'a Calls,
    file: Vec<u8>,
    map: Vec<u32>,
    hull: Vec<u64>,
}

/// Every case of the text.
pub fn replay(calls: &Calls, text: &str) -> Board {
    let mut board = Board::new();
    let mut replay = Replay { calls, file: Vec::new(), map: Vec::new(), hull: Vec::new() };
    for (number, line) in text.lines().enumerate() {
        let (kind, arguments, expected) = parts(line);
        let answer = replay.ask(kind, &arguments);
        let refusal = *answer.as_ref().err().unwrap_or(&0);
        let difference =
            (answer != expected).then(|| format!("answers {answer:x?}, expected {expected:x?}"));
        let input = || (line.len(), format!("line {}", number + 1));
        board.count(name(kind), (refusal, Side::Rust), difference, input);
    }
    board
}

/// A line: the kind, its arguments, the refusal or the words.
fn parts(line: &str) -> (u64, Vec<u64>, Words) {
    let words = line.split(' ').map(|word| u64::from_str_radix(word, 16).expect("a word"));
    let words: Vec<u64> = words.collect();
    let many = words[1] as usize;
    let (arguments, answer) = words[2..].split_at(many);
    assert_eq!(answer.len(), 2 + answer[1] as usize, "a line's length");
    let expected = match answer[0] {
        0 => Ok(answer[2..].to_vec()),
        number => Err(number as u32),
    };
    (words[0], arguments.to_vec(), expected)
}

fn floats(words: &[u64]) -> Vec<f32> {
    words.iter().map(|word| f32::from_bits(*word as u32)).collect()
}

/// The answer of a call that fills the front of a list: what it changed of words that it cannot
/// give.
fn filled(call: impl FnOnce(&mut [u64]) -> u32) -> Words {
    const FILL: u64 = 0xa5a5_a5a5_a5a5_a5a5;
    let mut out = [FILL; 20];
    match call(&mut out) {
        0 => Ok(out.into_iter().take_while(|word| *word != FILL).collect()),
        number => Err(number),
    }
}

/// The same for a list and its length.
fn listed(call: impl FnOnce(&mut [u32], &mut [u64]) -> u32) -> Words {
    let mut list = vec![0; 4_096];
    let mut out = [0];
    match call(&mut list, &mut out) {
        0 => {
            let entries = list[..out[0] as usize].iter().map(|n| *n as u64);
            Ok([out[0]].into_iter().chain(entries).collect())
        }
        number => Err(number),
    }
}

impl Replay<'_> {
    fn ask(&mut self, kind: u64, a: &[u64]) -> Words {
        match kind {
            LOAD => self.load(a),
            HULL | BOX => self.set_hull(kind, a),
            PVS | CONTENTS_NODES | FIND_LEAF_NODES | TRACE_NODES => self.list(kind, a),
            _ => self.words(kind, a),
        }
    }

    fn load(&mut self, bytes: &[u64]) -> Words {
        self.file = bytes.iter().map(|byte| *byte as u8).collect();
        self.map = vec![0; 31];
        match (self.calls.load)(&self.file, &mut self.map) {
            0 => Ok(self.map.iter().map(|word| *word as u64).collect()),
            number => Err(number),
        }
    }

    fn set_hull(&mut self, kind: u64, a: &[u64]) -> Words {
        let answer = match kind {
            HULL => filled(|out| (self.calls.hull)(&self.file, &self.map, a[0], a[1], out)),
            _ => filled(|out| (self.calls.bounds)(&floats(a), out)),
        };
        answer.map(|mut words| {
            self.hull = words.clone();
            // the Rust has no size of the tree
            words.truncate(HULL_ASKED);
            words
        })
    }

    fn words(&self, kind: u64, a: &[u64]) -> Words {
        let Replay { calls, file, map, hull } = self;
        filled(|out| match kind {
            RECORD => (calls.record)(file, map, a[0] as u32, a[1], out),
            COUNT => (calls.count)(map, a[0] as u32, out),
            ENTITIES => (calls.entities)(file, map, out),
            CONTENTS => (calls.contents)(file, map, hull, &floats(a), out),
            FIND_LEAF => (calls.find_leaf)(file, map, a[0], &floats(&a[1..]), out),
            _ => (calls.trace)(file, map, hull, &floats(a), out),
        })
    }

    fn list(&self, kind: u64, a: &[u64]) -> Words {
        let Replay { calls, file, map, hull } = self;
        listed(|list, out| match kind {
            PVS => (calls.pvs)(file, map, a[0], a[1], list, out),
            CONTENTS_NODES => (calls.contents_nodes)(file, map, hull, &floats(a), list, out),
            FIND_LEAF_NODES => {
                (calls.find_leaf_nodes)(file, map, a[0], &floats(&a[1..]), list, out)
            }
            _ => (calls.trace_nodes)(file, map, hull, &floats(a), list, out),
        })
    }
}

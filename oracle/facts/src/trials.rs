//! Expected answers beside the ones found, and what the trials are made of.

use maps::record::{self, Tables};
use maps::Layout;
use richter::{load, Answer, Refusal, Trace};

/// Expected answers beside the ones found.
pub struct Trials {
    pub run: u64,
    pub wrong: u64,
}

impl Trials {
    pub fn check(&mut self, mark: &str, name: &str, expected: &str, found: String) {
        self.run += 1;
        if found == expected {
            println!("  {mark:<1} {name}: {found}");
        } else {
            self.wrong += 1;
            println!("! {mark:<1} {name}: {found}, expected {expected}");
        }
    }
}

pub fn refused(refusal: Refusal) -> String {
    match refusal {
        Refusal::Number(n) => format!("refused {n}"),
        other => format!("{other}"),
    }
}

pub fn said<T>(answer: Result<T, Refusal>, say: impl Fn(T) -> String) -> String {
    match answer {
        Ok(value) => say(value),
        Err(refusal) => refused(refusal),
    }
}

pub fn loads(file: &[u8]) -> String {
    said(load(file), |_| "loads".to_string())
}

pub fn list(leaves: Result<Vec<usize>, Refusal>) -> String {
    said(leaves, |leaves| format!("{leaves:?}"))
}

pub fn contents(answer: Answer<u32>) -> String {
    said(answer.value, |code| match code {
        1 => "Empty".to_string(),
        2 => "Solid".to_string(),
        n => format!("contents {n}"),
    })
}

pub fn traced(answer: Answer<Trace>) -> String {
    let visits = answer.nodes.len();
    said(answer.value, |t| {
        let end = match t.boundary {
            None => format!("terminal at {:?}", t.end),
            Some((ratio, plane)) => format!(
                "boundary at {:?}, ratio {:?}, normal {:?}, dist {:?}",
                t.end, ratio, plane.normal, plane.dist
            ),
        };
        let start = if t.start_solid { ", started solid" } else { "" };
        format!("{end}{start}, {visits} visits")
    })
}

/// A map whose leaf 1 has a row at offset 0.
pub fn row(bytes: &[u8]) -> richter::Map {
    let leaf = leaf(0);
    let tables =
        Tables { visibility: bytes.to_vec(), leaves: vec![leaf, leaf], ..Tables::smallest() };
    load(&tables.file(&Layout::plain())).expect("a map with a row loads")
}

pub fn leaf(visibility: i32) -> record::Leaf {
    record::Leaf {
        contents: -1,
        visibility,
        min: [0; 3],
        max: [0; 3],
        facelist: 0,
        faces: 0,
        sounds: [1, 2, 3, 4],
    }
}

pub fn plain(tables: &Tables) -> Vec<u8> {
    tables.file(&Layout::plain())
}

//! A sample of the published Rust's own answers as a text, for a program that has no Rust at hand
//! to replay (`replay` reads it back).
//!
//! Words in hexadecimal, each ended by a space or a newline, one case a line:
//!
//!     KIND A a1 .. aA R N w1 .. wN
//!
//! the call's kind, its arguments, the refusal or 0, the words of the answer. A load sets the file
//! of the cases that follow, a hull or box the hull of the walks and traces that follow.

use std::collections::BTreeMap;
use std::fmt::Write;

use maps::record::{Plane, Tables};
use maps::shape::Child;
use maps::world::{self, World};
use maps::{damage, make, Layout, Seed};
use richter::{Hull, Map};

use crate::calls::words::{self, Words};
use crate::cases::faults;
use crate::cases::tables::{self, Made};
use crate::modes::records::{chosen, map_of_header};
use crate::modes::walks::{bounds, box_planes, three};
use crate::modes::{loads, replay};
use maps::floats::bits;

pub const LOAD: u64 = 1;
pub const RECORD: u64 = 2;
pub const COUNT: u64 = 3;
pub const ENTITIES: u64 = 4;
pub const HULL: u64 = 5;
pub const BOX: u64 = 6;
pub const CONTENTS: u64 = 7;
pub const FIND_LEAF: u64 = 8;
pub const TRACE: u64 = 9;
pub const PVS: u64 = 10;
pub const CONTENTS_NODES: u64 = 11;
pub const FIND_LEAF_NODES: u64 = 12;
pub const TRACE_NODES: u64 = 13;

/// What the program that replays the text has room for.
const TEXT_BYTES: usize = 524_288;
const TEXT_WORDS: usize = 262_144;
const FILE_BYTES: usize = 65_536;
const LIST: usize = 4_096;

/// Seeded maps are added until the text is about this long, or has about so many words.
const ENOUGH_BYTES: usize = 455_000;
const ENOUGH_WORDS: usize = 240_000;

/// The seeded maps are at most so long, so that there are many.
const SMALL: usize = 1_000;

/// Files of each refusal of loading, of two kinds each.
const REFUSED: u64 = 5;

pub struct Sample {
    pub text: String,
    words: usize,
    /// Whether the lists of nodes are written.
    nodes: bool,
    met: BTreeMap<(u64, u32), u64>,
}

/// Writes the text to a file and replays it; false if an answer of the linked calls differs.
pub fn run(path: &str, seed: u64, nodes: bool) -> bool {
    let sample = write(seed, nodes);
    if let Err(error) = std::fs::write(path, &sample.text) {
        eprintln!("{path}: {error}");
        return false;
    }
    println!("{} bytes, {} words", sample.text.len(), sample.words);
    for ((kind, refusal), times) in &sample.met {
        println!("{:<24} {refusal:>3} {times:>6}", replay::name(*kind));
    }
    replay::replay(&crate::calls::Calls::linked(), &sample.text).print()
}

/// The text that follows from a seed.
pub fn write(seed: u64, nodes: bool) -> Sample {
    let mut sample = Sample { text: String::new(), words: 0, nodes, met: BTreeMap::new() };
    richter::probe::set_patience(LIST);
    let seed = &mut Seed::named(seed, "sample");
    let smallest = Tables::smallest().file(&Layout::plain());
    sample.map(seed, &smallest);
    sample.trials(seed);
    sample.refused(seed, &smallest);
    sample.chains(seed);
    while sample.text.len() < ENOUGH_BYTES && sample.words < ENOUGH_WORDS {
        let file = some_file(seed);
        if file.len() > SMALL {
            continue;
        }
        sample.map(seed, &file);
        if seed.once_in(4) {
            let copy = damage::random(seed, &file);
            sample.map(seed, &copy);
        }
    }
    richter::probe::set_patience(usize::MAX);
    assert!(sample.text.len() <= TEXT_BYTES && sample.words <= TEXT_WORDS, "the text is too long");
    sample
}

/// A small map of any shape.
fn some_file(seed: &mut Seed) -> Vec<u8> {
    match seed.below(5) {
        0 => {
            let slanted = [0, 40, 100][seed.below(3) as usize];
            let nodes = 6 + seed.below(20) as usize;
            let world = World { nodes, slanted, visibility: 30, lightmaps: 0, faces: 1 };
            world::tables(seed, &world).file(&Layout::plain())
        }
        1 => {
            let planes = tables::few_planes(seed, 8);
            let nodes = tables::small_any(seed, planes.len());
            tables::of_nodes(seed, planes, &nodes).file
        }
        _ => {
            let what = maps::Plan::any(seed, 8);
            let (tables, layout) = make(seed, &what);
            tables.file(&layout)
        }
    }
}

fn floats(from: &[f32]) -> Vec<u64> {
    from.iter().map(|x| bits(*x) as u64).collect()
}

impl Sample {
    fn word(&mut self, word: u64) {
        write!(self.text, "{word:x} ").expect("a text grows");
        self.words += 1;
    }

    /// One case: a line.
    fn case(&mut self, kind: u64, arguments: &[u64], answer: &Words) {
        self.word(kind);
        self.word(arguments.len() as u64);
        arguments.iter().for_each(|word| self.word(*word));
        let (refusal, words) = match answer {
            Ok(words) => (0, &words[..]),
            Err(number) => (*number, &[][..]),
        };
        self.word(refusal as u64);
        self.word(words.len() as u64);
        words.iter().for_each(|word| self.word(*word));
        self.text.pop();
        self.text.push('\n');
        *self.met.entry((kind, refusal)).or_default() += 1;
    }

    /// A file, unless it is long or its textures were not the Rust's to say; the map if it loads.
    fn load(&mut self, file: &[u8]) -> Option<Map> {
        let (verdict, over) = loads::rust_verdict(file);
        if over || file.len() > FILE_BYTES {
            return None;
        }
        let bytes: Vec<u64> = file.iter().map(|byte| *byte as u64).collect();
        let answer = match &verdict {
            Ok(_) => Ok(map_of_header(file).map(u64::from).to_vec()),
            Err(number) => Err(*number),
        };
        self.case(LOAD, &bytes, &answer);
        verdict.ok()
    }

    /// A file and, if it loads, cases of every kind about it.
    fn map(&mut self, seed: &mut Seed, file: &[u8]) {
        let Some(rust) = self.load(file) else { return };
        let planes = planes(&rust);
        self.records(seed, file, &rust);
        self.lists(seed, &rust);
        for _ in 0..5 {
            let root = tables::root(seed, rust.render_nodes().len() as u64);
            self.find_leaf(&rust, root, tables::point(seed, &planes));
        }
        for model in chosen(seed, rust.models().len() as u64, 2) {
            for index in 0..3 {
                self.hull(seed, &rust, (model, index), &planes);
            }
        }
        let outside = [(rust.models().len() as u64, 0), (0, 3), (0, 1 << 32)];
        let outside = outside[seed.below(3) as usize];
        self.hull(seed, &rust, outside, &planes);
        if seed.once_in(2) {
            let bounds = bounds(seed);
            self.bounds(seed, bounds, 2);
        }
    }

    /// Counts, the entity text, a few records of every section and one past the last.
    fn records(&mut self, seed: &mut Seed, file: &[u8], rust: &Map) {
        let place = Ok(vec![map_of_header(file)[0] as u64, rust.entities().len() as u64]);
        self.case(ENTITIES, &[], &place);
        let bytes = [(0, rust.entities()), (4, rust.visibility()), (8, rust.lightmaps())];
        let (section, list) = bytes[seed.below(3) as usize];
        self.case(COUNT, &[section], &Ok(vec![list.len() as u64]));
        let map = map_of_header(file);
        let page = crate::paper::Map::new(file, &map).expect("enough words");
        for (section, records) in words::tables(rust, &page) {
            let (section, count) = (section as u64, records.len() as u64);
            if seed.once_in(3) {
                self.case(COUNT, &[section], &Ok(vec![count]));
            }
            for _ in 0..if count == 0 { 0 } else { 2 } {
                let index = seed.below(count);
                let answer = Ok(records[index as usize].clone());
                self.case(RECORD, &[section, index], &answer);
            }
            if seed.once_in(4) {
                let past = [count, count + 1, 1 << 32, u64::MAX][seed.below(4) as usize];
                self.case(RECORD, &[section, past], &Err(20));
            }
        }
    }

    /// Visibility lists of a few leaves, cut at the leaf count.
    fn lists(&mut self, seed: &mut Seed, rust: &Map) {
        let count = rust.leaves().len() as u64;
        for _ in 0..6 {
            let leaf = seed.below(count + 1);
            let leaf_count = match seed.below(6) {
                0 => seed.below(3),
                1 => u64::MAX,
                2 => seed.below(200),
                _ => count,
            };
            let answer = words::pvs(rust, leaf, leaf_count).map(|list| {
                let entries = list.iter().map(|n| *n as u64);
                [list.len() as u64].into_iter().chain(entries).collect()
            });
            self.case(PVS, &[leaf, leaf_count], &answer);
        }
    }

    /// An answer and the list of the nodes entered, under two kinds; none where the Rust went on
    /// for too long.
    fn walked(
        &mut self,
        (kind, list): (u64, u64),
        arguments: &[u64],
        found: Option<(Words, Vec<u32>)>,
    ) {
        let Some((answer, nodes)) = found else { return };
        self.case(kind, arguments, &answer);
        if self.nodes {
            let entries = nodes.iter().map(|n| *n as u64);
            let list_of = [nodes.len() as u64].into_iter().chain(entries).collect();
            self.case(list, arguments, &answer.map(|_| list_of));
        }
    }

    fn find_leaf(&mut self, rust: &Map, root: u64, p: [f32; 3]) {
        let found = match root {
            0 => rust.find_leaf(p),
            root => rust.leaf_finder(root as usize).find_leaf(p),
        };
        let found = words::walk(found, |leaf, visits| vec![leaf as u64, visits]);
        let arguments: Vec<u64> = [root].into_iter().chain(floats(&p)).collect();
        self.walked((FIND_LEAF, FIND_LEAF_NODES), &arguments, found);
    }

    fn contents(&mut self, hull: &Hull, p: [f32; 3]) {
        let words = |code, visits| vec![code as u64, visits];
        let found = words::walk(hull.contents_at_point(p), words);
        self.walked((CONTENTS, CONTENTS_NODES), &floats(&p), found);
    }

    fn trace(&mut self, hull: &Hull, s: [f32; 6]) {
        let found = words::walk(hull.trace(three(&s), three(&s[3..])), words::trace);
        self.walked((TRACE, TRACE_NODES), &floats(&s), found);
    }

    /// A hull of a model and, if there is one, walks and traces.
    fn hull(&mut self, seed: &mut Seed, rust: &Map, (model, index): (u64, u64), planes: &[Plane]) {
        match rust.hull(model as usize, index as usize) {
            Err(refusal) => {
                let number = words::number(refusal).expect("a number");
                self.case(HULL, &[model, index], &Err(number));
            }
            Ok(hull) => {
                let words = words::old_hull(index.min(1), &hull);
                self.case(HULL, &[model, index], &Ok(words));
                for _ in 0..2 {
                    self.contents(&hull, tables::point(seed, planes));
                    self.trace(&hull, tables::segment(seed, planes));
                }
            }
        }
    }

    /// A box and, if there is one, so many walks and traces.
    fn bounds(&mut self, seed: &mut Seed, bounds: [f32; 6], walks: usize) {
        match Hull::for_bounds(three(&bounds), three(&bounds[3..])) {
            Err(refusal) => {
                let number = words::number(refusal).expect("a number");
                self.case(BOX, &floats(&bounds), &Err(number));
            }
            Ok(hull) => {
                self.case(BOX, &floats(&bounds), &Ok(words::old_hull(2, &hull)));
                let planes = box_planes(&bounds);
                for _ in 0..walks {
                    self.contents(&hull, tables::point(seed, &planes));
                    self.trace(&hull, tables::segment(seed, &planes));
                }
            }
        }
    }

    /// Document 01's trials on a box, with others.
    fn trials(&mut self, seed: &mut Seed) {
        let unit = [-1.0, -1.0, -1.0, 1.0, 1.0, 1.0];
        self.bounds(seed, unit, 6);
        let hull = Hull::for_bounds([-1.0; 3], [1.0; 3]).expect("a box");
        for p in [[-1.0, 0.0, 0.0], [1.0, 0.0, 0.0], [0.0, f32::NAN, 0.0], [-0.0; 3]] {
            self.contents(&hull, p);
        }
        self.trace(&hull, [-3.0, 0.0, 0.0, 5.0, 0.0, 0.0]);
        self.trace(&hull, [0.0, 0.0, 0.0, 4.0, 0.0, 0.0]);
        for other in [[1.0; 6], [f32::NAN; 6], [0.0, 0.0, 0.0, 1.0, -0.0, 1.0]] {
            self.bounds(seed, other, 1);
        }
        for _ in 0..8 {
            let any = bounds(seed);
            self.bounds(seed, any, 2);
        }
    }

    /// Files that the Rust refuses, some of each number: the smallest map with a byte changed or
    /// cut, then a full one with each fault.
    fn refused(&mut self, seed: &mut Seed, smallest: &[u8]) {
        let changed = |seed: &mut Seed| {
            let mut copy = smallest.to_vec();
            let at = seed.below(copy.len() as u64) as usize;
            copy[at] = seed.next() as u8;
            if seed.once_in(8) {
                copy.truncate(at);
            }
            copy
        };
        let small: Vec<Vec<u8>> = (0..3_000).map(|_| changed(seed)).collect();
        self.some_of_each(&small);
        let full = loads::full(seed, false).0.file(&Layout::plain());
        let mut faulty = Vec::new();
        for fault in faults::all(&full) {
            let mut copy = full.clone();
            fault.put(&mut copy);
            faulty.push(copy);
        }
        for at in (1..faulty.len()).rev() {
            faulty.swap(at, seed.below(at as u64 + 1) as usize);
        }
        self.some_of_each(&faulty);
    }

    /// The first files of each refusal.
    fn some_of_each(&mut self, files: &[Vec<u8>]) {
        let mut met: BTreeMap<u32, u64> = BTreeMap::new();
        for file in files {
            let Err(number) = loads::rust_verdict(file).0 else { continue };
            let times = met.entry(number).or_default();
            *times += 1;
            if *times <= REFUSED {
                self.load(file);
            }
        }
    }

    /// A chain of 512 clip nodes that a point follows to its end, and one of 513.
    fn chains(&mut self, seed: &mut Seed) {
        for count in [512, 513] {
            let plane = Plane { normal: [0.0; 3], dist: 0.0, kind: seed.below(3) as i32 };
            let p = [1.0, -1.0, 2.0];
            let mut nodes = tables::chain_along(seed, &[plane], count, p);
            for child in nodes[count - 1].children.iter_mut() {
                *child = Child::End;
            }
            let mut made = tables::of_nodes(seed, vec![plane], &nodes).tables;
            made.render_nodes.clear();
            let made = Made::new(made, &Layout::plain());
            let rust = self.load(&made.file).expect("a chain loads");
            let hull = rust.hull(0, 1).expect("a hull");
            self.case(HULL, &[0, 1], &Ok(words::old_hull(1, &hull)));
            self.contents(&hull, p);
            self.trace(&hull, [p[0], p[1], p[2], 2.0, -2.0, 3.0]);
        }
    }
}

/// The planes of a map, as a file would hold them.
fn planes(rust: &Map) -> Vec<Plane> {
    let held = |p: &richter::Plane| Plane { normal: p.normal, dist: p.dist, kind: p.kind as i32 };
    rust.planes().iter().map(held).collect()
}

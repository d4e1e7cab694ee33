//! Map records made by hand over any bytes: every call beside document 01 read as a program.
//!
//! Where the sections that a call reads lie in the bytes, they are packed into a file of their own;
//! if the published Rust loads it, its answers are compared as well.

use maps::record::Tables;
use maps::{make, Seed};

use crate::calls::asked::Asked;
use crate::calls::words::{self, Words};
use crate::calls::{Calls, HULL_WORDS, RECORD_WORDS};
use crate::cases::tables::{self, Made};
use crate::modes::{sizes, team, walks};
use crate::paper::{self, record_size, tree, vis, MAP_WORDS, SECTIONS};
use crate::report::board::{shown, Board, Plan, Side, Sides};

pub fn run(plan: &Plan) -> bool {
    compare(&Calls::linked(), plan).print()
}

pub fn compare(calls: &Calls, plan: &Plan) -> Board {
    let mut board = Board::new();
    richter::probe::set_patience(walks::PATIENCE);
    if plan.from == 0 {
        at_limits(&mut board, calls, plan.seed);
        long_texts(&mut board, calls);
    }
    for (case, mut seed) in plan.seeds("hand-made") {
        let (file, mut map) = bytes(&mut seed);
        for _ in 0..seed.below(5) {
            spoil(&mut seed, &mut map, file.len() as u64);
        }
        let asked = Asked { calls, name: &|| format!("case {case}"), file: &file, map: &map };
        one(&mut board, &asked, &mut seed);
    }
    richter::probe::set_patience(usize::MAX);
    board
}

/// Each section with a limit, at the limit and one past it, all of it in the bytes.
fn at_limits(board: &mut Board, calls: &Calls, seed: u64) {
    for section in 0..SECTIONS {
        let Some(limit) = paper::limit(section) else { continue };
        for count in [limit, limit + 1] {
            let (file, map) = filled(section, count);
            let name = || format!("section {section} of {count} records");
            let asked = Asked { calls, name: &name, file: &file, map: &map };
            one(board, &asked, &mut Seed::named(seed, "limits"));
        }
    }
}

/// A section of so many records behind a plane and two leaves that see.
fn filled(section: usize, count: u64) -> (Vec<u8>, [u32; MAP_WORDS]) {
    let mut file = vec![0; 20];
    for _ in 0..2 {
        file.extend([0xff; 4]);
        file.extend([0; 24]);
    }
    let mut map = [0; MAP_WORDS];
    map[2 * paper::PLANES + 1] = 20;
    (map[2 * paper::LEAVES], map[2 * paper::LEAVES + 1]) = (20, 56);
    let size = count * record_size(section);
    (map[2 * section], map[2 * section + 1]) = (file.len() as u32, size as u32);
    let byte = match section {
        paper::LEAVES => 0xff,
        paper::VISIBILITY => 1,
        _ => 0,
    };
    file.resize(file.len() + size as usize, byte);
    (file, map)
}

/// Entity texts around 65,536 bytes, with and without a zero, wherever and however long their
/// section is.
fn long_texts(board: &mut Board, calls: &Calls) {
    for len in 65_534..=65_538usize {
        for (zero, behind) in [(false, 0), (true, 0), (true, 9)] {
            let mut file = vec![b'x'; len];
            if zero {
                file[len - 1] = 0;
            }
            file.resize(len + behind, 0xff);
            for at in [0, 1, 2, len - 1, len, len + 1, len + behind] {
                for size in [0, 1, 65_536, 65_537, u32::MAX] {
                    let mut map = [0; MAP_WORDS];
                    (map[0], map[1]) = (at as u32, size);
                    let name = || format!("a text of {len}, zero {zero}");
                    entities(board, &Asked { calls, name: &name, file: &file, map: &map });
                }
            }
        }
    }
}

/// Bytes and a map record that fits them, if any does.
pub fn bytes(seed: &mut Seed) -> (Vec<u8>, [u32; MAP_WORDS]) {
    match seed.below(8) {
        0..=3 => {
            let what = maps::Plan::any(seed, 10);
            let (made, layout) = make(seed, &what);
            let made = Made::new(made, &layout);
            (made.file, made.map)
        }
        4 | 5 => {
            let planes = tables::few_planes(seed, 8);
            let nodes = tables::small_any(seed, planes.len());
            let made = tables::of_nodes(seed, planes, &nodes);
            (made.file, made.map)
        }
        6 => {
            // small numbers, so that records are read
            let len = seed.below(400) as usize;
            let bytes = (0..len)
                .map(|_| match seed.below(12) {
                    0 => 0xff,
                    1 => 0xfe,
                    2 => seed.next() as u8,
                    3 | 4 => seed.below(4) as u8,
                    _ => 0,
                })
                .collect();
            (bytes, some_record(seed, len as u64))
        }
        _ => {
            let len = seed.below(300) as usize;
            ((0..len).map(|_| seed.next() as u8).collect(), some_record(seed, len as u64))
        }
    }
}

/// Sections of a few records each, anywhere in the bytes.
fn some_record(seed: &mut Seed, len: u64) -> [u32; MAP_WORDS] {
    let mut map = [0; MAP_WORDS];
    for section in 0..SECTIONS {
        map[2 * section] = seed.below(len + 1) as u32;
        map[2 * section + 1] = (seed.below(5) * record_size(section)) as u32;
    }
    map[MAP_WORDS - 1] = seed.below(4) as u32;
    map
}

/// An offset or a size.
fn place(seed: &mut Seed, len: u64) -> u32 {
    match seed.below(12) {
        0 => 0,
        1 => 1,
        2 => len as u32,
        3 => (len as u32).wrapping_add(1),
        4 => (len as u32).wrapping_sub(1),
        5 => u32::MAX,
        6 => u32::MAX - seed.below(64) as u32,
        7 => 1 << 31,
        8 => i32::MAX as u32,
        9 => seed.next() as u32,
        _ => seed.below(len + 1) as u32,
    }
}

/// Changes one section's place, or the texture count.
pub fn spoil(seed: &mut Seed, map: &mut [u32; MAP_WORDS], len: u64) {
    let section = seed.below(SECTIONS as u64) as usize;
    let other = seed.below(SECTIONS as u64) as usize;
    let size = record_size(section) as u32;
    let (at, count) = (2 * section, 2 * section + 1);
    match seed.below(13) {
        0 => map[at] = place(seed, len),
        1 => map[count] = place(seed, len),
        2 => {
            map.swap(at, 2 * other);
            map.swap(count, 2 * other + 1);
        }
        3 => map[at] = map[2 * other],
        4 => {
            let most = paper::limit(section).unwrap_or(3) as u32;
            map[count] = most * size + [0, size - 1, size, size + 1][seed.below(4) as usize];
        }
        5 => {
            map[at] = place(seed, len);
            map[count] = 0;
        }
        6 => {
            map[at] = (len as u32)
                .wrapping_sub(map[count])
                .wrapping_add(seed.below(3) as u32)
                .wrapping_sub(1)
        }
        7 => map[count] = map[count].wrapping_add(seed.below(size as u64) as u32),
        8 => {
            let counts = [0, 1, 2, 2_097_152, 2_097_153, 1 << 31, u32::MAX];
            map[MAP_WORDS - 1] = counts[seed.below(7) as usize];
        }
        9 => (map[at], map[count]) = (u32::MAX, u32::MAX),
        10 => map[at] = map[at].wrapping_add(seed.below(9) as u32).wrapping_sub(4),
        11 => map[count] = map[count].wrapping_add(size),
        _ => map[count] = map[count].wrapping_sub(size),
    }
}

/// The sections named, as a file of their own that the Rust loads. The texture count is kept.
fn repacked(map: &paper::Map, keep: &[usize]) -> Option<richter::Map> {
    let mut sections = Tables::smallest().sections();
    sections[paper::TEXTURES] = i32::try_from(map.texture_count).ok()?.to_le_bytes().to_vec();
    for section in keep {
        let size = map.count(*section) * record_size(*section);
        let from = map.offset(*section) as usize;
        if size > 0 && !map.section_readable(*section) {
            return None;
        }
        let bytes = if size == 0 { &[] } else { &map.file[from..from + size as usize] };
        sections[*section] = bytes.to_vec();
    }
    let mut file = vec![0; 124];
    file[0] = 29;
    for (section, bytes) in sections.iter().enumerate() {
        let place = [file.len() as u32, bytes.len() as u32].map(u32::to_le_bytes).concat();
        file[4 + 8 * section..12 + 8 * section].copy_from_slice(&place);
        file.extend_from_slice(bytes);
    }
    richter::load_without_textures(&file).ok()
}

/// Every section but the entities and the textures.
const ALL: [usize; 13] = [1, 3, 4, 5, 6, 7, 8, 9, 10, 11, 12, 13, 14];

/// Every call on a file with a map record.
pub fn one(board: &mut Board, asked: &Asked, seed: &mut Seed) {
    let map = asked.paper();
    let whole = repacked(&map, &ALL);
    records(board, asked, seed, whole.as_ref());
    entities(board, asked);
    hulls(board, asked, whole.as_ref());
    clip_walks(board, asked, seed, repacked(&map, &[1, 9]));
    render_walks(board, asked, seed, repacked(&map, &[1, 5, 10]));
    lists(board, asked, seed, repacked(&map, &[4, 10]));
    trees(board, asked, seed);
}

/// The tables that the Rust has: of the whole map, or of one section alone.
fn rust_tables(map: &paper::Map, whole: Option<&richter::Map>) -> Vec<(u32, Vec<Vec<u64>>)> {
    if let Some(rust) = whole {
        return words::tables(rust, map);
    }
    let mut found = Vec::new();
    for section in [1, 3, 5, 6, 9, 10, 11, 12, 13] {
        if let Some(rust) = repacked(map, &[section]) {
            found.extend(words::tables(&rust, map).into_iter().filter(|t| t.0 == section as u32));
        }
    }
    found
}

fn records(board: &mut Board, asked: &Asked, seed: &mut Seed, whole: Option<&richter::Map>) {
    let map = asked.paper();
    let Asked { calls, map: words, .. } = *asked;
    let rust = rust_tables(&map, whole);
    for section in 0..17u32 {
        let count = if section < 15 { map.count(section as usize) } else { 0 };
        let expected = if section < 15 { Ok(vec![count]) } else { Err(20) };
        let input = || asked.input(format!("section {section}, map {words:?}"));
        let call = |out: &mut [u64]| (calls.count)(words, section, out);
        board.words("bsp_count", 1, Sides::paper(expected), call, input);
        let table = rust.iter().find(|table| table.0 == section).map(|table| &table.1);
        let mut indices = vec![0, 1, 2, count / 2, count.wrapping_sub(1), count, u64::MAX];
        indices.push(seed.below(count + 1));
        indices.push((1 << 32) + seed.below(4));
        for index in indices {
            let found = table.map(|records| match records.get(index as usize) {
                Some(record) => Ok(record.clone()),
                None => Err(20),
            });
            record(board, asked, section, index, found);
        }
    }
}

fn record(board: &mut Board, asked: &Asked, section: u32, index: u64, rust: Option<Words>) {
    let Asked { calls, file, map, .. } = *asked;
    let sides = Sides { rust, paper: Some(asked.paper().record_words(section, index)) };
    board.words(
        "bsp_record",
        RECORD_WORDS,
        sides,
        |out| (calls.record)(file, map, section, index, out),
        || asked.input(format!("section {section}, record {index}, map {map:?}")),
    );
}

fn entities(board: &mut Board, asked: &Asked) {
    let Asked { calls, file, map, .. } = *asked;
    let expected = asked.paper().entities().map(|place| place.to_vec());
    let call = |out: &mut [u64]| (calls.entities)(file, map, out);
    let input = || asked.input(format!("map {map:?}"));
    board.words("bsp_entities", 2, Sides::paper(expected), call, input);
}

fn hulls(board: &mut Board, asked: &Asked, whole: Option<&richter::Map>) {
    let Asked { calls, file, map, .. } = *asked;
    let count = asked.paper().count(paper::MODELS);
    for model in [0, 1, 2, count.wrapping_sub(1), count, 1 << 32] {
        for index in [0, 1, 2, 3, 1 << 32] {
            let rust = whole.map(|rust| match rust.hull(model as usize, index as usize) {
                Ok(hull) => Ok(words::hull(index.min(1), &hull)),
                Err(refusal) => Err(words::number(refusal).expect("a number")),
            });
            let sides = Sides { rust, paper: Some(asked.paper().hull_words(model, index)) };
            let call = |out: &mut [u64]| (calls.hull)(file, map, model, index, out);
            let input = || asked.input(format!("model {model}, hull {index}, map {map:?}"));
            board.words("bsp_hull", HULL_WORDS, sides, call, input);
        }
    }
}

fn clip_walks(board: &mut Board, asked: &Asked, seed: &mut Seed, rust: Option<richter::Map>) {
    for _ in 0..3 {
        let root = tables::root(seed, asked.paper().count(paper::CLIP_NODES));
        let hull = walks::hull_words(seed, 1, root);
        let rust = rust.as_ref().map(|rust| rust.table(1).with_root(root as usize));
        let p = tables::point(seed, &[]);
        walks::contents(board, asked, seed, &hull, rust.as_ref(), p);
        let s = tables::segment(seed, &[]);
        walks::trace(board, asked, seed, &hull, rust.as_ref(), s);
    }
}

fn render_walks(board: &mut Board, asked: &Asked, seed: &mut Seed, rust: Option<richter::Map>) {
    for _ in 0..3 {
        let root = tables::root(seed, asked.paper().count(paper::RENDER_NODES));
        let hull = walks::hull_words(seed, 0, root);
        let table = rust.as_ref().map(|rust| rust.table(0).with_root(root as usize));
        let p = tables::point(seed, &[]);
        walks::contents(board, asked, seed, &hull, table.as_ref(), p);
        let s = tables::segment(seed, &[]);
        walks::trace(board, asked, seed, &hull, table.as_ref(), s);
        let found = rust.as_ref().map(|rust| rust.leaf_finder(root as usize).find_leaf(p));
        walks::find_leaf(board, asked, seed, root, p, found);
    }
    // a box reads no bytes, and a table that is none is refused
    for table in [2, 3, 1 << 32] {
        let root = tables::root(seed, 6);
        let hull = walks::hull_words(seed, table, root);
        let p = tables::point(seed, &[]);
        walks::contents(board, asked, seed, &hull, None, p);
        let s = tables::segment(seed, &[]);
        walks::trace(board, asked, seed, &hull, None, s);
    }
}

fn lists(board: &mut Board, asked: &Asked, seed: &mut Seed, rust: Option<richter::Map>) {
    let Asked { calls, file, map, .. } = *asked;
    let count = asked.paper().count(paper::LEAVES);
    for leaf in [0, 1, 2, count.wrapping_sub(1), count, count.wrapping_add(1 << 32)] {
        let leaf_count = match seed.below(6) {
            0 => seed.below(2),
            1 => u64::MAX,
            2 => count,
            _ => seed.below(300),
        };
        let expected = vis::get_pvs(&asked.paper(), leaf, leaf_count);
        let rust = rust.as_ref().map(|rust| words::pvs(rust, leaf, leaf_count));
        let needed = expected.as_ref().map_or(0, |list: &Vec<u32>| list.len());
        let lent = (walks::lent_list(seed, needed), 1);
        board.list(
            "bsp_pvs",
            lent,
            Sides { rust, paper: Some(expected) },
            |list, out| (calls.pvs)(file, map, leaf, leaf_count, list, out),
            || asked.input(format!("leaf {leaf}, leaf count {leaf_count}, map {map:?}")),
        );
    }
    for _ in 0..3 {
        let most = if seed.below(4) == 0 { count.saturating_add(1) } else { count.min(3) };
        let size = if seed.below(8) == 0 { 17 } else { seed.below(4) };
        let players: Vec<u64> = (0..size).map(|_| seed.below(most.max(1))).collect();
        let leaf_count = if seed.below(2) == 0 { seed.below(20) } else { seed.below(300) };
        team::ask(board, asked, seed, rust.as_ref(), (&players, leaf_count));
    }
}

fn trees(board: &mut Board, asked: &Asked, seed: &mut Seed) {
    let Asked { calls, file, map, .. } = *asked;
    for table in [0, 1, 2, u32::MAX] {
        let section = if table == 0 { paper::RENDER_NODES } else { paper::CLIP_NODES };
        let count = asked.paper().count(section);
        let root = tables::root(seed, count);
        let len = match seed.below(4) {
            0 => count.saturating_sub(1),
            _ => count + seed.below(4),
        };
        let marks = vec![0x5a; len.min(40_000) as usize];
        let (mut wanted, mut left) = (marks.clone(), marks.clone());
        let expected = tree::check(&asked.paper(), table, root, &mut wanted);
        let mut out = [7; 2];
        let refusal = (calls.tree_check)(file, map, table, root, &mut left, &mut out);
        let words = [*expected.as_ref().unwrap_or(&7), 7];
        let equal =
            refusal == *expected.as_ref().err().unwrap_or(&0) && out == words && left == wanted;
        let difference = (!equal).then(|| {
            let same = if left == wanted { "as expected" } else { "differ" };
            format!("answers {refusal} {out:?}, marks {same}, expected {}", shown(&expected))
        });
        board.count("bsp_tree_check", (refusal, Side::Paper), difference, || {
            let text = format!("table {table}, root {root}, {} marks, map {map:?}", marks.len());
            asked.input(text)
        });
        let hull = walks::hull_words(seed, table as u64, root);
        sizes::ask(board, asked, walks::lent_hull(seed, &hull), None, &marks);
    }
}

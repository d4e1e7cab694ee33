//! Loading beside the published Rust and document 01 read as a program: the verdict and the map
//! record, on whole and cut maps, every change of one byte, any two faults at once, damaged maps,
//! each limit at and one past it, sections in odd places, entity texts of every kind, and large
//! files. Of each file that loads every record and query is asked (`queries`).
//!
//! Of two kinds of texture sections the Rust is not asked, and the program on paper says what is
//! expected of them: those with a name that is not ASCII, which the Rust takes where it is UTF-8, and
//! those of more textures than are given to it.

use maps::damage;
use maps::record::{self, Tables, SIZES};
use maps::{make, Layout, Seed, Shape};
use richter::Refusal;

use crate::calls::asked::Asked;
use crate::calls::Calls;
use crate::cases::faults;
use crate::modes::records::map_of_header;
use crate::modes::{place, queries, walks};
use crate::paper::{self, MAP_WORDS};
use crate::report::board::{file_shown, shown, Board, Plan, Side};

pub fn run(plan: &Plan) -> bool {
    compare(&Calls::linked(), plan).print()
}

pub fn compare(calls: &Calls, plan: &Plan) -> Board {
    each_file(calls, plan, Question::Map)
}

/// What is asked of each file.
#[derive(Copy, Clone, PartialEq)]
pub enum Question {
    /// Its map record, and every query where it loads.
    Map,
    /// Where it is refused (`place`).
    Place,
}

/// Every file of this comparison.
pub fn each_file(calls: &Calls, plan: &Plan, question: Question) -> Board {
    richter::probe::set_patience(walks::PATIENCE);
    let seed = Seed::named(plan.seed, "queries");
    let mut loads = Loads { board: Board::new(), calls, seed, question };
    if plan.from == 0 {
        smallest(&mut loads, plan.quick);
        cuts(&mut loads, plan);
        changes(&mut loads, plan);
        places(&mut loads, plan);
        limits(&mut loads);
        two_faults(&mut loads, plan);
        texts(&mut loads, plan.quick);
        large(&mut loads, plan);
    }
    for (case, mut seed) in plan.seeds("loads") {
        loads.seed = seed.clone();
        seeded(&mut loads, &mut seed, case);
    }
    richter::probe::set_patience(usize::MAX);
    loads.board
}

struct Loads<'a> {
    board: Board,
    calls: &'a Calls,
    /// What the files are asked follows from it.
    seed: Seed,
    question: Question,
}

/// Texture counts up to this are given to the Rust whole: each present texture may read the file
/// several times over.
const TEXTURES_READ: u32 = 64;

/// The Rust's verdict, and whether the program on paper spoke for its texture section.
pub fn rust_verdict(file: &[u8]) -> (Result<richter::Map, u32>, bool) {
    let many = texture_count(file).is_some_and(|count| count > TEXTURES_READ);
    let on_paper = paper::load::textures(file);
    let over = on_paper.is_some() && (many || on_paper == Some(Err(13)));
    let verdict = match on_paper {
        Some(Err(number)) if over => return (Err(number), true),
        Some(Ok(())) if over => richter::load_without_textures(file),
        _ => richter::load(file),
    };
    let verdict = verdict.map_err(|refusal| match refusal {
        Refusal::Number(number) => number,
        other => panic!("loading says {other}"),
    });
    (verdict, over)
}

/// The texture count where the header names one.
fn texture_count(file: &[u8]) -> Option<u32> {
    let at = file.get(4 + 8 * record::TEXTURES..8 + 8 * record::TEXTURES)?;
    let at = u32::from_le_bytes(at.try_into().unwrap()) as usize;
    let count = file.get(at..at.checked_add(4)?)?;
    Some(u32::from_le_bytes(count.try_into().unwrap()))
}

/// One file beside the Rust, and every query of it if it loads.
pub fn one(board: &mut Board, calls: &Calls, seed: &Seed, name: impl Fn() -> String, file: &[u8]) {
    let board_of = std::mem::take(board);
    let mut loads = Loads { board: board_of, calls, seed: seed.clone(), question: Question::Map };
    loads.one(name, file);
    *board = loads.board;
}

impl Loads<'_> {
    /// One file, and every query of it if it loads.
    fn one(&mut self, name: impl Fn() -> String, file: &[u8]) {
        if self.question == Question::Place {
            return place::one(&mut self.board, self.calls, &name, file);
        }
        let (verdict, over) = rust_verdict(file);
        let input = || (file.len(), format!("{}, {}", name(), file_shown(file)));
        let expected = verdict.as_ref().map(|_| map_of_header(file)).map_err(|number| *number);
        let on_paper = paper::load::load(file);
        let difference = (on_paper != expected)
            .then(|| format!("paper {}, Rust {}", shown(&on_paper), shown(&expected)));
        self.board.count_paper("bsp_load", difference, input);
        if over {
            let number = *expected.as_ref().err().unwrap_or(&0);
            let met = (number, Side::Rust);
            self.board.count("textures on paper", met, None, input);
        }
        self.call(MAP_WORDS, file, &expected, input);
        if let (Ok(rust), Ok(map)) = (verdict, expected) {
            let line = if over { "files asked, textures on paper" } else { "files asked" };
            self.board.count(line, (0, Side::Rust), None, input);
            let asked = Asked { calls: self.calls, name: &name, file, map: &map };
            queries::all(&mut self.board, &asked, &mut self.seed, &rust);
        }
    }

    /// The call with so many words lent, and two more beside it to see that they are kept.
    fn call(
        &mut self,
        lent: usize,
        file: &[u8],
        expected: &Result<[u32; MAP_WORDS], u32>,
        input: impl Fn() -> (usize, String),
    ) {
        const FILL: u32 = crate::report::board::FILL_WORD;
        let mut words = [FILL; MAP_WORDS + 2];
        let refusal = (self.calls.load)(file, &mut words[..lent]);
        let mut wanted = [FILL; MAP_WORDS + 2];
        if let Ok(map) = expected {
            wanted[..MAP_WORDS].copy_from_slice(map);
        }
        let equal = refusal == *expected.as_ref().err().unwrap_or(&0) && words == wanted;
        let difference = (!equal)
            .then(|| format!("answers {refusal} {}, expected {}", shown(&words), shown(expected)));
        let side = if lent < MAP_WORDS { Side::Paper } else { Side::Rust };
        self.board.count("bsp_load", (refusal, side), difference, input);
    }
}

fn plain(tables: &Tables) -> Vec<u8> {
    tables.file(&Layout::plain())
}

/// Every change of one byte of the 193-byte map, and lists that are too short.
fn smallest(loads: &mut Loads, quick: bool) {
    let file = plain(&Tables::smallest());
    loads.one(|| "the smallest map".to_string(), &file);
    if loads.question == Question::Map {
        lists(loads, &file);
    }
    let mut copy = file.clone();
    for at in 0..file.len() {
        for by in 1..=255u8 {
            if quick && by.count_ones() > 1 && by != 255 {
                continue;
            }
            copy[at] = file[at] ^ by;
            loads.one(|| format!("smallest map, byte {at} changed to {}", file[at] ^ by), &copy);
        }
        copy[at] = file[at];
    }
}

/// Lists that are too short, and one that is longer.
fn lists(loads: &mut Loads, file: &[u8]) {
    for lent in 0..MAP_WORDS {
        loads.call(lent, file, &Err(22), || (file.len(), format!("{lent} words lent")));
        loads.call(lent, &[], &Err(22), || (0, format!("{lent} words lent")));
    }
    loads.call(MAP_WORDS + 2, file, &Ok(map_of_header(file)), || (file.len(), String::new()));
}

/// A small map with every section in use.
pub fn full(seed: &mut Seed, odd_layout: bool) -> (Tables, Layout) {
    let what = maps::Plan {
        planes: 2,
        render_nodes: 2,
        render_shape: Shape::Balanced,
        clip_nodes: 2,
        clip_shape: Shape::Balanced,
        leaves: 3,
        faces: 2,
        textures: 2,
        visibility: 5,
        lightmaps: 3,
        models: 2,
        wild: 0,
        odd_layout,
    };
    make(seed, &what)
}

/// Every cut of several maps: a full one with each section last in turn, and others.
fn cuts(loads: &mut Loads, plan: &Plan) {
    for last in 0..15 {
        let mut seed = Seed::named(plan.seed, "cuts");
        let (tables, _) = full(&mut seed, false);
        let file = packed(&tables.sections(), last);
        every_cut(loads, &format!("map with section {last} last"), &file);
    }
    for map in 0..if plan.quick { 2 } else { 30 } {
        let mut seed = Seed::named(plan.seed.wrapping_add(map), "cuts");
        let what = maps::Plan { odd_layout: map % 2 == 0, ..maps::Plan::any(&mut seed, 8) };
        let (mut tables, layout) = make(&mut seed, &what);
        if seed.once_in(3) {
            tables.textures = vec![0; 4];
            tables.texinfos.clear();
            tables.faces.clear();
        }
        every_cut(loads, &format!("map {map}"), &tables.file(&layout));
    }
}

fn every_cut(loads: &mut Loads, name: &str, file: &[u8]) {
    for cut in damage::cuts(file) {
        loads.one(|| format!("{name} cut at {}", cut.len()), cut);
    }
}

/// Every byte of small maps to several values, and of one to every value.
fn changes(loads: &mut Loads, plan: &Plan) {
    if !plan.quick {
        let mut file = plain(&full(&mut Seed::named(plan.seed, "every change"), false).0);
        for at in 0..file.len() {
            let was = file[at];
            for by in 1..=255u8 {
                file[at] = was ^ by;
                loads.one(|| format!("full map, byte {at} changed to {}", was ^ by), &file);
            }
            file[at] = was;
        }
    }
    for map in 0..if plan.quick { 1 } else { 6 } {
        let mut seed = Seed::named(plan.seed.wrapping_add(map), "changes");
        let (tables, layout) = full(&mut seed, map % 2 == 1);
        let file = tables.file(&layout);
        for (number, copy) in damage::changes(&file).enumerate() {
            loads.one(|| format!("map {map}, change {number}"), &copy);
        }
    }
}

/// Each section at every offset, whole and empty: over the header, over the others, past the end.
fn places(loads: &mut Loads, plan: &Plan) {
    let mut seed = Seed::named(plan.seed, "places");
    let file = plain(&full(&mut seed, false).0);
    let map = map_of_header(&file);
    let step = if plan.quick { 7 } else { 1 };
    let far = [i32::MAX as u32 - 1, i32::MAX as u32];
    for section in 0..record::SECTIONS {
        for offset in (0..file.len() as u32 + 9).step_by(step).chain(far) {
            for size in [map[2 * section + 1], 0] {
                let mut copy = file.clone();
                put_place(&mut copy, section, offset, size);
                loads.one(|| format!("section {section} at {offset} of size {size}"), &copy);
            }
        }
    }
}

fn put_place(file: &mut [u8], section: usize, offset: u32, size: u32) {
    let place = [offset, size].map(u32::to_le_bytes).concat();
    file[4 + 8 * section..12 + 8 * section].copy_from_slice(&place);
}

/// Any two faults of a full map at once: which one is met first.
fn two_faults(loads: &mut Loads, plan: &Plan) {
    for map in 0..if plan.quick { 1 } else { 5 } {
        let mut seed = Seed::named(plan.seed.wrapping_add(map), "faults");
        let (tables, _) = full(&mut seed, false);
        let file = plain(&tables);
        let faults = faults::all(&file);
        for (at, first) in faults.iter().enumerate() {
            for second in &faults[at..] {
                let mut copy = file.clone();
                first.put(&mut copy);
                second.put(&mut copy);
                loads.one(|| format!("{} and {}", first.name, second.name), &copy);
            }
        }
    }
}

/// Every section with a limit, at the limit and one past it.
fn limits(loads: &mut Loads) {
    let limited = [
        (record::PLANES, 8_192),
        (record::VERTICES, 65_535),
        (record::VISIBILITY, 1_048_576),
        (record::RENDER_NODES, 32_767),
        (record::CLIP_NODES, 32_767),
        (record::LEAVES, 32_767),
        (record::EDGES, 256_000),
        (record::EDGELIST, 512_000),
        (record::MODELS, 256),
        (record::MODELS, 0),
        (record::FACELIST, 70_000),
        (record::TEXINFOS, 40_000),
    ];
    for (section, limit) in limited {
        for count in [limit, limit + 1] {
            let file = of_zeros(section, count);
            loads.one(|| format!("section {section} of {count} records"), &file);
            // the size alone, without the bytes
            let short = &file[..file.len() - SIZES[section].min(file.len())];
            loads.one(|| format!("section {section} of {count} records, short"), short);
        }
    }
    for count in [0, 1, 2_097_152, 2_097_153, i32::MAX, -1, i32::MIN] {
        let textures = count.to_le_bytes().to_vec();
        let file = plain(&Tables { textures, ..Tables::smallest() });
        loads.one(|| format!("texture count {count}"), &file);
    }
}

/// The smallest map with a section of so many records of zeros; leaves and nodes of what is valid.
fn of_zeros(section: usize, count: usize) -> Vec<u8> {
    let mut sections = Tables::smallest().sections();
    let mut bytes = vec![0; count * SIZES[section]];
    if section == record::LEAVES {
        for leaf in bytes.chunks_mut(28) {
            leaf[..8].copy_from_slice(&[0xff; 8]);
        }
    }
    if section == record::TEXINFOS {
        sections[record::TEXTURES] = [1, 0, 0, 0, 0xff, 0xff, 0xff, 0xff].to_vec();
    }
    sections[section] = std::mem::take(&mut bytes);
    packed(&sections, section)
}

/// Sections one after the other, the one named last.
pub fn packed(sections: &[Vec<u8>; 15], last: usize) -> Vec<u8> {
    let mut file = vec![0; 124];
    file[0] = 29;
    let order = (0..15).filter(|section| *section != last).chain([last]);
    for section in order {
        let bytes = &sections[section];
        let place = [file.len() as u32, bytes.len() as u32].map(u32::to_le_bytes).concat();
        file[4 + 8 * section..12 + 8 * section].copy_from_slice(&place);
        file.extend_from_slice(bytes);
    }
    file
}

/// The smallest map with an entity text at its end, of a named size.
fn with_text(text: &[u8], size: usize) -> Vec<u8> {
    let mut sections = Tables::smallest().sections();
    sections[0] = text.to_vec();
    let mut file = packed(&sections, 0);
    file[8..12].copy_from_slice(&(size as u32).to_le_bytes());
    file
}

/// Entity texts: every one and two bytes, every class of longer sequences, lengths at the limit,
/// with and without a zero byte.
fn texts(loads: &mut Loads, quick: bool) {
    let mut one = |text: &[u8], size: usize| {
        let name = || format!("entity text {} of size {size}", shown(&text));
        loads.one(name, &with_text(text, size));
    };
    for size in 0..4 {
        for text in [&[][..], &[0], &[65], &[65, 0], &[0, 65], &[0, 0], &[65, 66, 0], &[0xff, 0]] {
            one(text, size);
        }
    }
    for first in 0..=255u8 {
        one(&[first], 1);
        one(&[first, 0], 2);
        for second in 0..=255u8 {
            if !quick || (first >= 0xc0 && second % 16 == 15) || second & 0x3f == 0 {
                one(&[first, second], 2);
                one(&[first, second, 0], 3);
            }
        }
    }
    let middle = [0x00, 0x41, 0x7f, 0x80, 0x8f, 0x90, 0x9f, 0xa0, 0xbf, 0xc0, 0xff];
    let telling = [0xc1, 0xc2, 0xdf, 0xe0, 0xe1, 0xec, 0xed, 0xee, 0xf0, 0xf1, 0xf4, 0xf5];
    for first in 0xc0..=0xffu8 {
        if quick && !telling.contains(&first) {
            continue;
        }
        for a in middle {
            for b in middle {
                one(&[first, a, b, 0], 4);
                one(&[b'x', first, a, b], 4);
                for c in middle {
                    if !quick || first >= 0xf0 && c >= 0x7f {
                        one(&[first, a, b, c, 0], 5);
                    }
                }
            }
        }
    }
    long_texts(loads);
}

/// Texts around 65,536 bytes, the zero counted; a wrong byte in them comes after the length.
fn long_texts(loads: &mut Loads) {
    for len in 65_534..=65_538 {
        for letter in ["x", "\u{e9}", "\u{1d11e}"] {
            for wrong in [None, Some(0), Some(32_768), Some(65_500), Some(len - 2)] {
                long_text(loads, len, letter, wrong);
            }
        }
    }
}

/// So many bytes of one letter, the last one cut short where it does not fit; with and without a
/// zero at the end, and bytes behind it.
fn long_text(loads: &mut Loads, len: usize, letter: &str, wrong: Option<usize>) {
    for (zero, behind) in [(false, 0), (true, 0), (true, 3)] {
        let mut text: Vec<u8> = letter.bytes().cycle().take(len).collect();
        if zero {
            text[len - 1] = 0;
        }
        if let Some(at) = wrong {
            text[at] = 0xff;
        }
        text.resize(len + behind, b'y');
        for size in [len, len - 1, len + behind, 65_536, 1] {
            let name = || format!("text of {len} {letter}, zero {zero}, wrong {wrong:?}, {size}");
            loads.one(name, &with_text(&text, size));
        }
    }
}

/// Files of several megabytes, whole and damaged.
fn large(loads: &mut Loads, plan: &Plan) {
    for map in 0..if plan.quick { 1 } else { 4 } {
        let mut seed = Seed::named(plan.seed.wrapping_add(map), "large");
        let what = maps::Plan {
            planes: 8_192,
            render_nodes: 32_767,
            render_shape: Shape::Random,
            clip_nodes: 32_767,
            clip_shape: Shape::Random,
            leaves: 32_767,
            faces: 9_000,
            textures: 5,
            visibility: 1_048_576,
            lightmaps: 1_000_000,
            models: 256,
            wild: 20,
            odd_layout: map % 2 == 1,
        };
        let (tables, layout) = make(&mut seed, &what);
        let file = tables.file(&layout);
        loads.one(|| format!("large map {map}"), &file);
        for number in 0..if plan.quick { 5 } else { 60 } {
            let copy = damage::random(&mut seed, &file);
            loads.one(|| format!("large map {map}, damage {number}"), &copy);
        }
    }
}

/// Random damage to a map, or sections in odd places.
fn seeded(loads: &mut Loads, seed: &mut Seed, case: u64) {
    let most = if seed.once_in(5_000) { 600 } else { 8 };
    let what = maps::Plan::any(seed, most);
    let (mut tables, layout) = if seed.once_in(3) { full(seed, true) } else { make(seed, &what) };
    let file = tables.file(&layout);
    for number in 0..7 {
        let copy = match number {
            0..=2 => damage::random(seed, &file),
            3 => one_field(seed, &file),
            4 | 5 => odd_places(seed, &file),
            _ => {
                for _ in 0..1 + seed.below(2) {
                    wrong_index(seed, &mut tables);
                }
                tables.file(&layout)
            }
        };
        loads.one(|| format!("case {case}, damage {number}"), &copy);
    }
}

/// An index at or just outside its count, or an extent around 2,000.
fn wrong_index(seed: &mut Seed, tables: &mut Tables) {
    let near = |seed: &mut Seed, count: usize| count as i64 - 1 + seed.below(3) as i64;
    let pick = |seed: &mut Seed, count: usize| seed.below(count.max(1) as u64) as usize;
    let textures = i32::from_le_bytes(tables.textures[..4].try_into().unwrap()) as usize;
    let (face, info) = (pick(seed, tables.faces.len()), pick(seed, tables.texinfos.len()));
    let (entry, node) = (pick(seed, tables.edgelist.len()), pick(seed, tables.render_nodes.len()));
    let (edges, vertices) = (tables.edges.len(), tables.vertices.len());
    match seed.below(9) {
        0 => tables.texinfos.get_mut(info).map(|t| t.texture = near(seed, textures) as i32),
        1 => {
            let count = tables.texinfos.len();
            tables.faces.get_mut(face).map(|f| f.texinfo = near(seed, count) as i16)
        }
        2 => {
            let count = tables.edgelist.len();
            tables.faces.get_mut(face).map(|f| f.edge = near(seed, count) as i32 - f.edges as i32)
        }
        3 => tables.edgelist.get_mut(entry).map(|e| *e = near(seed, edges) as i32),
        4 => tables.edgelist.get_mut(entry).map(|e| *e = -(near(seed, edges) as i32)),
        5 => tables.edgelist.get_mut(entry).map(|e| *e = i32::MIN),
        6 => {
            let edge = pick(seed, edges);
            tables.edges.get_mut(edge).map(|e| e[0] = near(seed, vertices) as u16)
        }
        7 => {
            let leaf = near(seed, tables.leaves.len());
            tables.render_nodes.get_mut(node).map(|n| n.children[1] = (-1 - leaf) as i16)
        }
        _ => {
            let cast = [124.0, 126.0, 2046.0, 2048.0, 4221.0][seed.below(5) as usize];
            let vertex = pick(seed, vertices);
            let x = 16.0 * (cast + seed.below(3) as f32) + seed.below(2) as f32 / 8.0;
            tables.vertices.get_mut(vertex).map(|v| v[seed.below(2) as usize] = x)
        }
    };
}

/// One byte of one record, so that a single field is refused.
pub fn one_field(seed: &mut Seed, file: &[u8]) -> Vec<u8> {
    let mut copy = file.to_vec();
    let map = map_of_header(file);
    for _ in 0..40 {
        let section = seed.below(15) as usize;
        let (offset, size) = (map[2 * section] as usize, map[2 * section + 1] as usize);
        if size > 0 && offset + size <= copy.len() {
            let at = offset + seed.below(size as u64) as usize;
            copy[at] = [0, 1, 2, 0x7f, 0x80, 0xff, seed.next() as u8][seed.below(7) as usize];
            break;
        }
    }
    copy
}

/// A section over the header, over another, past the end, or empty anywhere.
pub fn odd_places(seed: &mut Seed, file: &[u8]) -> Vec<u8> {
    let mut copy = file.to_vec();
    let map = map_of_header(file);
    for _ in 0..1 + seed.below(2) {
        let section = seed.below(15) as usize;
        let size = map[2 * section + 1];
        let len = file.len() as u32;
        let (offset, size) = match seed.below(8) {
            0 => (seed.below(124) as u32, size),
            1 => (map[2 * seed.below(15) as usize], size),
            2 => (len.wrapping_sub(size), size),
            3 => (len.wrapping_sub(size).wrapping_add(1), size),
            4 => (len + seed.below(9) as u32, size),
            5 => (i32::MAX as u32 - seed.below(3) as u32, 0),
            6 => (seed.below(len as u64 + 9) as u32, 0),
            _ => (map[2 * section], size + SIZES[section] as u32 * seed.below(3) as u32),
        };
        put_place(&mut copy, section, offset, size);
    }
    copy
}

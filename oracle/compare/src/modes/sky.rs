//! Files with sky (document 02, note 1): contents -6 in leaves and in clip nodes.
//!
//! The published Rust refuses them (10). So each call is held against document 01 and 02 read as a
//! program; and, since the Rust has `Sky = 6` as a comment, against the Rust with that line: of each
//! file that loads every record and query is asked (`queries`). Built without the feature `sky` the
//! line is left out: then it is shown that the published Rust refuses each of these files, and the
//! program on paper alone is expected.
//!
//! Beside both, without that line: the same map with another code in the place of -6, which the
//! published Rust loads. Its walks and traces there, with Sky for that code, are those of the calls.

use maps::record::{ClipNode, Leaf, Plane, Tables};
use maps::sky::{self, SKY};
use maps::world::{self, World};
use maps::{damage, make, Layout, Seed};
use richter::Refusal;

use crate::calls::asked::Asked;
use crate::calls::words::{self, Words};
use crate::calls::{Calls, TRACE_WORDS, WALK_WORDS};
use crate::cases::tables::{self, Made};
use crate::modes::records::map_of_header;
use crate::modes::walks::{bits_of, hull_words, three};
use crate::modes::{boxes, hand_made, loads, walks};
use crate::paper::{self, MAP_WORDS};
use crate::report::board::{shown, Board, Plan, Side};

/// Whether the Rust has the marked line.
const NAMED: bool = cfg!(feature = "sky");

pub fn run(plan: &Plan) -> bool {
    println!("{}", if NAMED { "the Rust with `Sky = 6`" } else { "the Rust as published" });
    compare(&Calls::linked(), plan).print()
}

pub fn compare(calls: &Calls, plan: &Plan) -> Board {
    let mut board = Board::new();
    richter::probe::set_patience(walks::PATIENCE);
    if plan.from == 0 {
        every_code(&mut board, calls);
    }
    for (case, mut seed) in plan.seeds("sky") {
        let seed = &mut seed;
        let (tables, layout) = a_map(seed);
        let made = Made::new(tables, &layout);
        let name = || format!("case {case}");
        let asked = Asked { calls, name: &name, file: &made.file, map: &made.map };
        whole(&mut board, &asked, seed, &made.tables.planes);
        by_another_name(&mut board, &asked, seed, &made.tables, &layout);
        boxes::on_file(&mut board, calls, seed, &made, case);
        for number in 0..3 {
            let copy = damage::random(seed, &made.file);
            let name = || format!("case {case}, damage {number}");
            damaged(&mut board, calls, seed, &name, &copy);
        }
    }
    richter::probe::set_patience(usize::MAX);
    board
}

/// A map of any shape with sky in it.
fn a_map(seed: &mut Seed) -> (Tables, Layout) {
    loop {
        let (mut tables, layout) = match seed.below(30) {
            0 => {
                let nodes = 200 + seed.below(800) as usize;
                let slanted = [0, 40, 100][seed.below(3) as usize];
                let world = World { nodes, slanted, visibility: 50, lightmaps: 0, faces: 1 };
                (world::tables(seed, &world), Layout::plain())
            }
            1..=5 => loads::full(seed, false),
            6..=14 => {
                let planes = tables::few_planes(seed, 8);
                let nodes = tables::small_any(seed, planes.len());
                (tables::of_nodes(seed, planes, &nodes).tables, Layout::plain())
            }
            _ => {
                let what = maps::Plan::any(seed, 20);
                make(seed, &what)
            }
        };
        if sky::plant(seed, &mut tables) {
            return (tables, layout);
        }
    }
}

/// Loading beside the program on paper.
fn loading(board: &mut Board, calls: &Calls, name: &dyn Fn() -> String, file: &[u8]) {
    let expected = paper::load::load(file);
    let mut words = [7; MAP_WORDS];
    let refusal = (calls.load)(file, &mut words);
    let wanted = *expected.as_ref().unwrap_or(&[7; MAP_WORDS]);
    let equal = refusal == *expected.as_ref().err().unwrap_or(&0) && words == wanted;
    let difference = (!equal)
        .then(|| format!("answers {refusal} {}, expected {}", shown(&words), shown(&expected)));
    let input = || (file.len(), format!("{}, {}", name(), crate::report::board::file_shown(file)));
    board.count("bsp_load", (refusal, Side::Paper), difference, input);
}

/// A file with sky that loads: every call, beside the Rust with the line; without it, what the
/// published Rust says of loading it, and every call beside the program on paper.
fn whole(board: &mut Board, asked: &Asked, seed: &mut Seed, planes: &[Plane]) {
    let Asked { calls, name, file, .. } = *asked;
    if NAMED {
        loads::one(board, calls, seed, name, file);
        within(board, asked, seed, planes);
    } else {
        let (verdict, _) = loads::rust_verdict(file);
        let difference = match verdict {
            Err(10) => None,
            Err(number) => Some(format!("refuses it with {number}")),
            Ok(_) => Some("loads it".to_string()),
        };
        let input = || asked.input("the Rust as published".to_string());
        board.count("Rust, sky refused with 10", (0, Side::Rust), difference, input);
        loading(board, calls, name, file);
    }
    hand_made::one(board, asked, seed);
}

/// What the Rust with the line says of points and traces in the sky: it is not solid, and what a
/// trace asks of its contents.
fn within(board: &mut Board, asked: &Asked, seed: &mut Seed, planes: &[Plane]) {
    let (Ok(rust), _) = loads::rust_verdict(asked.file) else { return };
    for _ in 0..6 {
        let (p, s) = (tables::point(seed, planes), tables::segment(seed, planes));
        walks::from_roots(board, asked, seed, &rust, p, s);
        for table in 0..2 {
            let hull = rust.table(table);
            let input = || asked.input(format!("table {table}, segment {}", bits_of(&s)));
            if hull.contents_at_point(p).value == Ok(SKY as u32) {
                board.count("Rust, a point in the sky", (0, Side::Rust), None, input);
            }
            let Ok(trace) = hull.trace(three(&s), three(&s[3..])).value else { continue };
            if trace.contents == SKY as u32 {
                let held = (trace.in_water(), trace.in_open(), trace.all_solid());
                let difference = (held != (true, false, false)).then(|| format!("{held:?}"));
                board.count("Rust, a trace in the sky", (0, Side::Rust), difference, input);
            }
        }
    }
}

/// The published Rust on the same map with another code in the place of -6.
fn by_another_name(
    board: &mut Board,
    asked: &Asked,
    seed: &mut Seed,
    tables: &Tables,
    layout: &Layout,
) {
    let Some((copy, code)) = sky::renamed(tables) else { return };
    let (Ok(rust), _) = loads::rust_verdict(&copy.file(layout)) else {
        panic!("the Rust refuses a map without sky");
    };
    let named = |found: u64| if found == code as u64 { SKY as u64 } else { found };
    let Asked { calls, file, map, .. } = *asked;
    for table in 0..2 {
        let section = [paper::RENDER_NODES, paper::CLIP_NODES][table];
        let root = tables::root(seed, asked.paper().count(section));
        let hull = hull_words(seed, table as u64, root);
        let other = rust.table(table).with_root(root as usize);
        for _ in 0..4 {
            let p = tables::point(seed, &tables.planes);
            let s = tables::segment(seed, &tables.planes);
            let input = || asked.input(format!("hull {}, {}", shown(&hull), bits_of(&s)));
            let found = words::walk(other.contents_at_point(p), |c, v| vec![named(c as u64), v]);
            let call = |out: &mut [u64]| (calls.contents)(file, map, &hull, &p, out);
            same(board, "Rust, contents by another name", WALK_WORDS, found, call, input);
            let found = words::walk(other.trace(three(&s), three(&s[3..])), |t, visits| {
                let mut words = words::trace(t, visits);
                words[1] = named(words[1]);
                words
            });
            let call = |out: &mut [u64]| (calls.trace)(file, map, &hull, &s, out);
            same(board, "Rust, traces by another name", TRACE_WORDS, found, call, input);
        }
    }
}

/// What a call answered beside what the Rust found, unless that took too long.
fn same(
    board: &mut Board,
    line: &str,
    lent: usize,
    found: Option<(Words, Vec<u32>)>,
    call: impl FnOnce(&mut [u64]) -> u32,
    input: impl FnOnce() -> (usize, String),
) {
    let Some((expected, _)) = found else {
        board.given_up += 1;
        return;
    };
    let mut out = vec![7; lent];
    let refusal = call(&mut out);
    let equal = match &expected {
        Ok(words) => refusal == 0 && *words == out,
        Err(number) => refusal == *number,
    };
    let difference = (!equal)
        .then(|| format!("answers {refusal} {}, expected {}", shown(&out), shown(&expected)));
    board.count(line, (0, Side::Rust), difference, input);
}

/// A changed copy: as any other file beside the Rust with the line, else beside the program on paper.
fn damaged(
    board: &mut Board,
    calls: &Calls,
    seed: &mut Seed,
    name: &dyn Fn() -> String,
    file: &[u8],
) {
    if NAMED {
        return loads::one(board, calls, seed, name, file);
    }
    loading(board, calls, name, file);
    if paper::load::load(file).is_ok() {
        let map = map_of_header(file);
        hand_made::one(board, &Asked { calls, name, file, map: &map }, seed);
    }
}

/// Each code in a leaf and in each child of a clip node. With the line the Rust takes 1 to 6 and 9 to
/// 14; without it the published ones, and of 6 it says 10.
fn every_code(board: &mut Board, calls: &Calls) {
    let codes = (-3..=20).chain([i32::MAX, i32::MIN, 32_768, 65_530, 65_542, 1 << 16 | 6]);
    for code in codes {
        let contents = code.wrapping_neg();
        let leaf = Leaf {
            contents,
            visibility: -1,
            min: [0; 3],
            max: [0; 3],
            facelist: 0,
            faces: 0,
            sounds: [0; 4],
        };
        let tables = Tables { leaves: vec![leaf], ..Tables::smallest() };
        one_code(board, calls, code, &tables);
        let Ok(contents) = i16::try_from(contents) else { continue };
        for children in [[contents, -1], [-1, contents]] {
            let clip_nodes = vec![ClipNode { plane: 0, children }];
            one_code(board, calls, code, &Tables { clip_nodes, ..Tables::smallest() });
        }
    }
}

fn one_code(board: &mut Board, calls: &Calls, code: i32, tables: &Tables) {
    let file = tables.file(&Layout::plain());
    let name = || format!("code {code}");
    loading(board, calls, &name, &file);
    let rust = richter::load(&file);
    let paper = paper::load::load(&file);
    let wanted = match code {
        SKY if !NAMED => Some(10),
        _ => paper.err(),
    };
    let found = match rust {
        Ok(_) => None,
        Err(Refusal::Number(number)) => Some(number),
        Err(other) => panic!("loading says {other}"),
    };
    let difference = (found != wanted).then(|| format!("{found:?}, expected {wanted:?}"));
    let input = || (file.len(), name());
    board.count("Rust, each code", (0, Side::Rust), difference, input);
}

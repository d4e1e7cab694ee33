//! Every record of generated maps through `bsp_record`, `bsp_count` and `bsp_entities`, beside the
//! tables of the published Rust and document 01 read as a program.

use maps::record::{SECTIONS, TEXTURES};
use maps::{make, Seed};

use crate::calls::asked::Asked;
use crate::calls::words::{self, Words};
use crate::calls::{Calls, RECORD_WORDS};
use crate::report::board::{Board, Plan, Sides};

/// The records of a section that are asked for: all of them up to so many, else the first, the
/// last and so many others.
pub const SAMPLED: u64 = 200;

/// The map record that a file's header names, with the texture count of its section.
pub fn map_of_header(file: &[u8]) -> [u32; 31] {
    let word = |at: usize| u32::from_le_bytes(file[at..at + 4].try_into().unwrap());
    let mut map = [0; 31];
    for (at, entry) in map[..2 * SECTIONS].iter_mut().enumerate() {
        *entry = word(4 + 4 * at);
    }
    map[30] = word(map[2 * TEXTURES] as usize);
    map
}

pub fn run(plan: &Plan) -> bool {
    compare(&Calls::linked(), plan).print()
}

pub fn compare(calls: &Calls, plan: &Plan) -> Board {
    let mut board = Board::new();
    for (case, mut seed) in plan.seeds("records") {
        let seed = &mut seed;
        let most = if seed.once_in(50) { 400 } else { 24 };
        let what = maps::Plan::any(seed, most);
        let (tables, layout) = make(seed, &what);
        let file = tables.file(&layout);
        let Ok(rust) = richter::load(&file) else {
            panic!("case {case}: the Rust refuses a map made to load");
        };
        let map = map_of_header(&file);
        let name = || format!("case {case}");
        let asked = Asked { calls, name: &name, file: &file, map: &map };
        tables_of(&mut board, &asked, seed, &rust, u64::MAX);
        short_lists(&mut board, &asked, seed);
    }
    board
}

/// Every table of a map that the Rust loaded, sampled where it has more than `most` records; the
/// counts of every section; the entity text.
pub fn tables_of(
    board: &mut Board,
    asked: &Asked,
    seed: &mut Seed,
    rust: &richter::Map,
    most: u64,
) {
    for (section, records) in words::tables(rust, &asked.paper()) {
        let count = records.len() as u64;
        for index in chosen(seed, count, most) {
            one_record(board, asked, seed, (section, index), Ok(records[index as usize].clone()));
        }
        let far = [count + 1, 1 << 32, (1 << 32) + count / 2, u64::MAX, u64::MAX / 20];
        let past = if most == u64::MAX { far.to_vec() } else { vec![far[seed.below(5) as usize]] };
        for index in past.into_iter().chain([count]) {
            one_record(board, asked, seed, (section, index), Err(20));
        }
        one_count(board, asked, section, Sides::both(Ok(vec![count]), on_paper(asked, section)));
    }
    byte_sections(board, asked, rust);
    entities(board, asked, rust);
}

/// Indices below a count: all if they are at most `most`, else the first, the last and others.
pub fn chosen(seed: &mut Seed, count: u64, most: u64) -> Vec<u64> {
    if count <= most {
        return (0..count).collect();
    }
    [0, count - 1].into_iter().chain((0..most).map(|_| seed.below(count))).collect()
}

fn on_paper(asked: &Asked, section: u32) -> Words {
    Ok(vec![asked.paper().count(section as usize)])
}

fn one_record(
    board: &mut Board,
    asked: &Asked,
    seed: &mut Seed,
    (section, index): (u32, u64),
    rust: Words,
) {
    let Asked { calls, file, map, .. } = *asked;
    board.words(
        "bsp_record",
        RECORD_WORDS + seed.below(4) as usize,
        Sides::both(rust, asked.paper().record_words(section, index)),
        |out| (calls.record)(file, map, section, index, out),
        || asked.input(format!("section {section}, record {index}")),
    );
}

fn one_count(board: &mut Board, asked: &Asked, section: u32, sides: Sides<Words>) {
    let Asked { calls, map, .. } = *asked;
    board.words(
        "bsp_count",
        2,
        sides,
        |out| (calls.count)(map, section, out),
        || asked.input(format!("section {section}, map {map:?}")),
    );
}

/// Sections of bytes have a count and no records; sections from 15 on are none.
fn byte_sections(board: &mut Board, asked: &Asked, rust: &richter::Map) {
    let Asked { calls, file, map, .. } = *asked;
    let counts = [
        (0, rust.entities().len()),
        (2, map[2 * TEXTURES + 1] as usize),
        (4, rust.visibility().len()),
        (8, rust.lightmaps().len()),
    ];
    for (section, count) in counts {
        let counted = Ok(vec![count as u64]);
        one_count(board, asked, section, Sides::both(counted, on_paper(asked, section)));
    }
    for section in [15, 16, 31, 256, u32::MAX] {
        one_count(board, asked, section, Sides::paper(Err(20)));
    }
    for section in [0, 2, 4, 8, 15, 16, 31, 257, u32::MAX] {
        let call = |out: &mut [u64]| (calls.record)(file, map, section, 0, out);
        let input = || asked.input(format!("section {section}, record 0"));
        board.words("bsp_record", RECORD_WORDS, Sides::paper(Err(20)), call, input);
    }
}

/// The entity text lies where the section does and is the Rust's.
fn entities(board: &mut Board, asked: &Asked, rust: &richter::Map) {
    let Asked { calls, file, map, .. } = *asked;
    let text = rust.entities();
    let expected = Ok(vec![map[0] as u64, text.len() as u64]);
    let paper = asked.paper().entities().map(|place| place.to_vec());
    board.words(
        "bsp_entities",
        3,
        Sides::both(expected, paper),
        |out| {
            let refusal = (calls.entities)(file, map, out);
            let place = out[0] as usize..(out[0].wrapping_add(out[1])) as usize;
            if refusal == 0 && !text.is_empty() && file.get(place) != Some(text) {
                return 99;
            }
            refusal
        },
        || asked.input("entities".to_string()),
    );
}

/// Lists that are too short are 22, whatever else is wrong.
fn short_lists(board: &mut Board, asked: &Asked, seed: &mut Seed) {
    let Asked { calls, file, map, .. } = *asked;
    let few = seed.below(31) as usize;
    let input = || asked.input(format!("short lists, {few} words of a map"));
    let section = seed.below(17) as u32;
    let index = seed.below(3) * (u64::MAX / 2);
    let refused = || Sides::paper(Err(22));
    let lent = seed.below(RECORD_WORDS as u64) as usize;
    let call = |out: &mut [u64]| (calls.record)(file, map, section, index, out);
    board.words("bsp_record", lent, refused(), call, input);
    let call = |out: &mut [u64]| (calls.record)(file, &map[..few], section, index, out);
    board.words("bsp_record", RECORD_WORDS, refused(), call, input);
    let call = |out: &mut [u64]| (calls.count)(&map[..few], section, out);
    board.words("bsp_count", 1, refused(), call, input);
    board.words("bsp_count", 0, refused(), |out| (calls.count)(map, section, out), input);
    let call = |out: &mut [u64]| (calls.entities)(file, &map[..few], out);
    board.words("bsp_entities", 2, refused(), call, input);
    let call = |out: &mut [u64]| (calls.entities)(file, map, out);
    board.words("bsp_entities", seed.below(2) as usize, refused(), call, input);
}

//! Where loading refuses a file, beside the program on paper: the files of `loads` (every cut, every
//! change of one byte, any two faults at once, damage, limits, odd places, entity texts, large files) and
//! the texture sections of `textures`. The number is held to the Rust's and to that of `bsp_load`. Where a
//! full map has one byte changed and a record's field is refused, that byte must lie in the record that
//! the call names; this asks nothing of the program on paper.

use maps::{Layout, Seed};

use crate::calls::{Calls, VERSION};
use crate::modes::loads::{self, Question};
use crate::modes::records::map_of_header;
use crate::modes::textures;
use crate::paper::place::{self, PLACE_WORDS};
use crate::paper::{record_size, MAP_WORDS, TEXTURES};
use crate::report::board::{file_shown, Board, Plan, Side, Sides};

const CALL: &str = "bsp_load_place";

pub fn run(plan: &Plan) -> bool {
    compare(&Calls::linked(), plan).print()
}

pub fn compare(calls: &Calls, plan: &Plan) -> Board {
    let mut board = loads::each_file(calls, plan, Question::Place);
    if plan.from == 0 {
        version(&mut board, calls);
        changed_byte(&mut board, calls, plan);
    }
    for (case, mut seed) in plan.seeds("place") {
        let file = textures::a_file(&mut seed);
        one(&mut board, calls, &|| format!("texture case {case}"), &file);
        short_lists(&mut board, calls, &file);
    }
    board
}

/// One file: the number beside the Rust's and `bsp_load`'s, the four words beside the program's.
pub fn one(board: &mut Board, calls: &Calls, name: &dyn Fn() -> String, file: &[u8]) {
    let expected = place::words(file);
    let number = expected[0] as u32;
    let input = || (file.len(), format!("{}, {}", name(), file_shown(file)));
    let (verdict, over) = loads::rust_verdict(file);
    let rust = verdict.err().unwrap_or(0);
    let loaded = (calls.load)(file, &mut [0; MAP_WORDS]);
    let difference = (number != rust || number != loaded)
        .then(|| format!("the place says {number}, the Rust {rust}, bsp_load {loaded}"));
    let side = if over { Side::Paper } else { Side::Rust };
    board.count("the place's number", (number, side), difference, input);
    let call = |out: &mut [u64]| (calls.load_place)(file, out);
    board.words(CALL, PLACE_WORDS + 2, Sides::paper(Ok(expected.to_vec())), call, input);
    if number != 0 {
        let line = format!("refused in section {}", expected[1]);
        board.count(&line, (number, side), None, input);
    }
}

/// Lists that are too short.
fn short_lists(board: &mut Board, calls: &Calls, file: &[u8]) {
    for lent in 0..PLACE_WORDS {
        let call = |out: &mut [u64]| (calls.load_place)(file, out);
        let input = || (file.len(), format!("{lent} words lent"));
        board.words(CALL, lent, Sides::paper(Err(22)), call, input);
    }
}

fn version(board: &mut Board, calls: &Calls) {
    let given = (calls.version)();
    let difference = (given != VERSION).then(|| format!("answers {given}, expected {VERSION}"));
    board.count("bsp_version", (0, Side::Paper), difference, || (0, String::new()));
}

/// A full map with one byte behind its header changed. Where a field is refused (10), the record that is
/// named has that byte; the texture count aside, which says what a texture info may name.
fn changed_byte(board: &mut Board, calls: &Calls, plan: &Plan) {
    for map in 0..if plan.quick { 1 } else { 4 } {
        let mut seed = Seed::named(plan.seed.wrapping_add(map), "changed byte");
        let mut file = loads::full(&mut seed, false).0.file(&Layout::plain());
        let sections = map_of_header(&file);
        for at in 124..file.len() {
            let was = file[at];
            for by in [1, 2, 0x40, 0x7f, 0x80, 0xff] {
                file[at] = was ^ by;
                let mut out = [0; PLACE_WORDS];
                (calls.load_place)(&file, &mut out);
                let [number, section, record, byte] = out;
                if number != 10 || section == TEXTURES as u64 || in_section(&sections, TEXTURES, at)
                {
                    continue;
                }
                let size = record_size(section as usize);
                let start = sections[2 * section as usize] as u64 + size * record;
                let right = byte == start && (start..start + size).contains(&(at as u64));
                let difference = (!right).then(|| format!("names {out:?}"));
                board.count(
                    "the changed byte is in the record",
                    (10, Side::Rust),
                    difference,
                    || (file.len(), format!("byte {at} changed to {}", was ^ by)),
                );
            }
            file[at] = was;
        }
    }
}

/// Whether a byte of a file is a section's.
fn in_section(sections: &[u32; MAP_WORDS], section: usize, at: usize) -> bool {
    let from = sections[2 * section] as usize;
    (from..from + sections[2 * section + 1] as usize).contains(&at)
}

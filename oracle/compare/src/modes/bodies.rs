//! The hall's own body sizes (document 02, note 10): files of them beside the program on paper, short
//! ones exhaustively; hulls with them beside the Rust's, whose two built-in rows they replace; and the
//! Rust's own contents, leaves and traces from hulls with any sizes.

use maps::floats::{self, SPECIAL};
use maps::{make, Seed};

use crate::calls::asked::Asked;
use crate::calls::words::{self, Words};
use crate::calls::{Calls, HULL_WORDS, SIZES_WORDS};
use crate::cases::tables::{self, Made};
use crate::modes::walks;
use crate::paper::bodies::{self, Bounds};
use crate::paper::{self, fields::float_word};
use crate::report::board::{file_shown, shown, Board, Plan, Sides};

/// The built-in rows, as document 01 has them.
const BUILT_IN: [Bounds; 2] =
    [[-16.0, -16.0, -24.0, 16.0, 16.0, 32.0], [-32.0, -32.0, -24.0, 32.0, 32.0, 64.0]];

pub fn run(plan: &Plan) -> bool {
    compare(&Calls::linked(), plan).print()
}

pub fn compare(calls: &Calls, plan: &Plan) -> Board {
    let mut board = Board::new();
    if plan.from == 0 {
        short_files(&mut board, calls);
        rows(&mut board, calls);
        changed_files(&mut board, calls);
        every_bound(&mut board, calls);
    }
    richter::probe::set_patience(walks::PATIENCE);
    for (case, mut seed) in plan.seeds("bodies") {
        let seed = &mut seed;
        for _ in 0..20 {
            file(&mut board, calls, &any_file(seed), SIZES_WORDS + seed.below(3) as usize);
        }
        file(&mut board, calls, &any_file(seed), seed.below(SIZES_WORDS as u64) as usize);
        on_map(&mut board, calls, seed, case);
    }
    richter::probe::set_patience(usize::MAX);
    board
}

/// One file beside the program on paper; a list of fewer than twelve words is 22 before anything.
fn file(board: &mut Board, calls: &Calls, bytes: &[u8], lent: usize) {
    let expected = match lent < SIZES_WORDS {
        true => Err(22),
        false => bodies::parse(bytes).map(|sizes| bodies::words(&sizes)),
    };
    let call = |out: &mut [u64]| (calls.body_sizes)(bytes, out);
    let input = || (bytes.len(), format!("a list of {lent}, {}", file_shown(bytes)));
    board.words("bsp_body_sizes", lent, Sides::paper(expected), call, input);
}

/// Every file of up to seven bytes that are tags, lengths or neither.
fn short_files(board: &mut Board, calls: &Calls) {
    const BYTES: [u8; 5] = [0, 1, 2, 3, 24];
    for length in 0..=7u32 {
        for number in 0..5usize.pow(length) {
            let bytes: Vec<u8> = (0..length).map(|at| BYTES[number / 5usize.pow(at) % 5]).collect();
            file(board, calls, &bytes, SIZES_WORDS);
        }
    }
}

/// A field: its tag, its length, the lowest byte first, and as many bytes of the bounds, zeros behind
/// them.
fn field(tag: u8, length: u16, bounds: &Bounds) -> Vec<u8> {
    let mut value: Vec<u8> = bounds.iter().flat_map(|bound| bound.to_le_bytes()).collect();
    value.resize(length as usize, 0);
    [&[tag][..], &length.to_le_bytes(), &value].concat()
}

/// Every row of up to three fields of these tags and lengths, whole, cut short in each of its last four
/// bytes, and with a byte or two behind it; the bounds of two fields are good ones, and of a third no
/// body's.
fn rows(board: &mut Board, calls: &Calls) {
    const TAGS: [u8; 4] = [0, 1, 2, 3];
    const LENGTHS: [u16; 5] = [0, 1, 24, 25, 24 << 8];
    let kinds = TAGS.len() * LENGTHS.len();
    for count in 0..=3u32 {
        for number in 0..kinds.pow(count) {
            let mut row = Vec::new();
            for at in 0..count {
                let kind = number / kinds.pow(at) % kinds;
                let bounds = [BUILT_IN[0], BUILT_IN[1], [f32::NAN; 6]][at as usize];
                row.extend(field(TAGS[kind / 5], LENGTHS[kind % 5], &bounds));
            }
            for cut in 0..row.len().min(5) {
                file(board, calls, &row[..row.len() - cut], SIZES_WORDS);
            }
            for more in [&[0][..], &[1], &[2, 24], &[1, 0, 0]] {
                file(board, calls, &[&row, more].concat(), SIZES_WORDS);
            }
        }
    }
}

/// The right files of these sizes: hull 1 first, and hull 2 first.
fn right_files(sizes: &[Bounds; 2]) -> [Vec<u8>; 2] {
    let [one, two] = [field(1, 24, &sizes[0]), field(2, 24, &sizes[1])];
    [[&one[..], &two[..]].concat(), [&two[..], &one[..]].concat()]
}

/// Every cut of both right files, every change of one byte in them, and each byte left out or doubled.
fn changed_files(board: &mut Board, calls: &Calls) {
    for right in right_files(&BUILT_IN) {
        for length in 0..=right.len() {
            file(board, calls, &right[..length], SIZES_WORDS);
        }
        for at in 0..right.len() {
            for byte in 0..=255 {
                let mut changed = right.clone();
                changed[at] = byte;
                file(board, calls, &changed, SIZES_WORDS);
            }
            let mut changed = right.clone();
            changed.insert(at, right[at]);
            file(board, calls, &changed, SIZES_WORDS);
            changed.drain(at..at + 2);
            file(board, calls, &changed, SIZES_WORDS);
        }
    }
}

/// Each pair of special floats as minimum and maximum, on each axis of each hull, in both files.
fn every_bound(board: &mut Board, calls: &Calls) {
    for which in 0..6 {
        for low in SPECIAL {
            for high in SPECIAL {
                let mut sizes = BUILT_IN;
                sizes[which / 3][which % 3] = low;
                sizes[which / 3][which % 3 + 3] = high;
                for bytes in right_files(&sizes) {
                    file(board, calls, &bytes, SIZES_WORDS);
                }
            }
        }
    }
}

/// Sizes as a hall may have them, now and then with an odd float or a minimum that is not below.
fn any_sizes(seed: &mut Seed, wild: u64) -> [Bounds; 2] {
    let mut sizes = BUILT_IN;
    for bounds in &mut sizes {
        for at in 0..3 {
            bounds[at] = -(1 + seed.below(90) as i32) as f32 + floats::half(seed);
            bounds[at + 3] = (1 + seed.below(90)) as f32 + floats::half(seed);
            if seed.once_in(wild) {
                bounds[at + 3] = floats::nudged(seed, bounds[at], 1);
            }
            if seed.once_in(wild) {
                bounds[at + 3 * seed.below(2) as usize] = tables::odd_float(seed);
            }
        }
    }
    sizes
}

/// A right file of any sizes, or one with a field more, less or twice, a wrong tag or length, or cut.
fn any_file(seed: &mut Seed) -> Vec<u8> {
    let sizes = any_sizes(seed, 30);
    let mut fields = vec![field(1, 24, &sizes[0]), field(2, 24, &sizes[1])];
    if seed.below(2) == 0 {
        fields.swap(0, 1);
    }
    match seed.below(14) {
        0 => fields.truncate(1),
        1 => fields[1] = fields[0].clone(),
        2 => fields.push(fields[0].clone()),
        3 => fields[1][0] = seed.next() as u8,
        4 => fields[0][1] = seed.next() as u8,
        5 => fields[1][2] = seed.next() as u8,
        6 => {
            let (tag, length) = (seed.below(4) as u8, seed.below(40) as u16);
            fields.insert(seed.below(3) as usize, field(tag, length, &sizes[0]));
        }
        _ => {}
    }
    let mut bytes = fields.concat();
    match seed.below(20) {
        0 => bytes.truncate(seed.below(bytes.len() as u64) as usize),
        1 => bytes.push(seed.next() as u8),
        2 => bytes = maps::damage::random(seed, &bytes),
        _ => {}
    }
    bytes
}

/// Twelve words of sizes: of bodies, or made by hand, whose high bits are not looked at.
pub fn words_of(seed: &mut Seed) -> Vec<u64> {
    let sizes = any_sizes(seed, 12);
    let mut words: Vec<u64> = sizes.concat().iter().map(|x| x.to_bits() as u64).collect();
    match seed.below(4) {
        0 => words.iter_mut().for_each(|word| *word |= seed.next() << 32),
        1 => words.iter_mut().for_each(|word| *word = seed.next() >> seed.below(64)),
        _ => {}
    }
    words.extend((0..seed.below(3)).map(|_| 7));
    words
}

/// The Rust's hull with its row replaced; hull 0 has its zeros still.
fn by_rust(rust: &richter::Map, sizes: &[u64], (model, index): (u64, u64)) -> Words {
    let hull = rust.hull(model as usize, index as usize);
    let hull = hull.map_err(|refusal| words::number(refusal).expect("a number"))?;
    let mut out = words::hull(index.min(1), &hull);
    if index > 0 {
        let row = &sizes[6 * (index as usize - 1)..][..6];
        out[3..9].clone_from_slice(row);
        out[3..9].iter_mut().for_each(|word| *word = float_word(f32::from_bits(*word as u32)));
    }
    Ok(out)
}

/// A hull with these sizes beside the Rust's with its row replaced.
pub fn one(
    board: &mut Board,
    asked: &Asked,
    rust: Option<&richter::Map>,
    sizes: &[u64],
    at: (u64, u64),
    lent: usize,
) {
    let Asked { calls, file, map, .. } = *asked;
    let paper = Some(asked.paper().sized_hull_words(sizes, at.0, at.1));
    let sides = Sides { rust: rust.map(|rust| by_rust(rust, sizes, at)), paper };
    let call = |out: &mut [u64]| (calls.hull_sized)(file, map, sizes, at.0, at.1, out);
    let input = || asked.input(format!("sizes {}, model {}, hull {}", shown(&sizes), at.0, at.1));
    board.words("bsp_hull_sized", lent, sides, call, input);
}

/// The hulls of a map's models with the built-in sizes, which must be the Rust's own, and with others;
/// and walks and traces from them, which must be the Rust's own too.
fn on_map(board: &mut Board, calls: &Calls, seed: &mut Seed, case: u64) {
    let what = maps::Plan::any(seed, 30);
    let (made, layout) = make(seed, &what);
    let made = Made::new(made, &layout);
    let Ok(rust) = richter::load(&made.file) else {
        panic!("case {case}: the Rust refuses a map made to load");
    };
    let asked = Asked { calls, name: &|| format!("case {case}"), file: &made.file, map: &made.map };
    let models = what.models as u64;
    for _ in 0..4 {
        let model =
            [seed.below(models), seed.below(models), models, u64::MAX][seed.below(4) as usize];
        let index = [0, 1, 1, 2, 2, 3, 1 << 32][seed.below(7) as usize];
        let own = match seed.once_in(3) {
            true => bodies::words(&BUILT_IN),
            false => words_of(seed),
        };
        let lent = HULL_WORDS + seed.below(3) as usize;
        one(board, &asked, Some(&rust), &own, (model, index), lent);
        let sized = by_rust(&rust, &own, (model, index));
        if let (Ok(sized), Ok(hull)) = (sized, rust.hull(model as usize, index as usize)) {
            let planes = &made.tables.planes;
            let p = tables::point(seed, planes);
            walks::contents(board, &asked, seed, &sized, Some(&hull), p);
            let s = tables::segment(seed, planes);
            walks::trace(board, &asked, seed, &sized, Some(&hull), s);
            if index == 0 {
                let found = rust.leaf_finder(hull.root()).find_leaf(p);
                walks::find_leaf(board, &asked, seed, sized[1], p, Some(found));
            }
        }
    }
    by_hand(board, &asked, seed, models);
    short_lists(board, &asked, seed);
}

/// A map record made by hand: its models lie elsewhere, or past the file's end.
fn by_hand(board: &mut Board, asked: &Asked, seed: &mut Seed, models: u64) {
    let mut map = asked.map.to_vec();
    let section = 2 * paper::MODELS;
    match seed.below(3) {
        0 => map[section] = (asked.file.len() as u32).saturating_sub(seed.below(70) as u32),
        1 => map[section + 1] += 64 * seed.below(300) as u32,
        _ => map[section] = seed.below(asked.file.len() as u64 + 9) as u32,
    }
    let asked = Asked { map: &map, ..*asked };
    let at = (seed.below(models + 1), seed.below(4));
    one(board, &asked, None, &words_of(seed), at, HULL_WORDS);
}

/// Each list in turn too short is 22, before a model outside its table.
fn short_lists(board: &mut Board, asked: &Asked, seed: &mut Seed) {
    let Asked { calls, file, map, .. } = *asked;
    let sizes = words_of(seed);
    for short in 0..3 {
        let mut cut = |which: u64, full: usize| match which == short {
            true => seed.below(full as u64) as usize,
            false => full,
        };
        let (words, twelve, lent) = (cut(0, 31), cut(1, SIZES_WORDS), cut(2, HULL_WORDS));
        let index = [1, 3][seed.below(2) as usize];
        let call = |out: &mut [u64]| {
            (calls.hull_sized)(file, &map[..words], &sizes[..twelve], u64::MAX, index, out)
        };
        let input =
            || asked.input(format!("{words} words of a map, {twelve} of sizes, {lent} of a hull"));
        board.words("bsp_hull_sized", lent, Sides::paper(Err(22)), call, input);
    }
}

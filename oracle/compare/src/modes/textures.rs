//! Texture sections of every kind (document 02, note 2): absent textures, shared and overlapping
//! headers, cut files, names of 16 bytes, of capitals and not ASCII, frames of both groups and wrong
//! ones, pictures past the end, ends one off. Loading beside the Rust and the program on paper; of what
//! loads every accessor beside the program on paper, and that program's groups beside the Rust's own,
//! whose numbers of groups and order of equal names are free; and the accessors on map records made by
//! hand.

use std::collections::BTreeMap;

use maps::record::{self, Tables, TexInfo};
use maps::Seed;
use richter::map::Frames;

use crate::calls::asked::Asked;
use crate::calls::{Calls, RECORD_WORDS};
use crate::modes::loads;
use crate::modes::records::map_of_header;
use crate::modes::walks::lent_list;
use crate::paper::textures::{numbers, Name, TEXTURE_WORDS};
use crate::paper::{self, MAP_WORDS};
use crate::report::board::{file_shown, shown, Board, Plan, Sides};

pub fn run(plan: &Plan) -> bool {
    compare(&Calls::linked(), plan).print()
}

pub fn compare(calls: &Calls, plan: &Plan) -> Board {
    let mut board = Board::new();
    for (case, mut seed) in plan.seeds("textures") {
        let seed = &mut seed;
        let file = a_file(seed);
        let name = || format!("case {case}");
        let mut map = load(&mut board, calls, &name, &file);
        if map.is_none() || seed.once_in(3) {
            map = Some(by_hand(seed, &file));
        }
        let Some(map) = map else { continue };
        let asked = Asked { calls, name: &name, file: &file, map: &map };
        accessors(&mut board, &asked, seed);
        all_numbers(&mut board, &asked, seed);
        if seed.once_in(50) {
            short_lists(&mut board, &asked);
        }
    }
    board
}

/// Loading beside both; the map record if it loads.
pub fn load(
    board: &mut Board,
    calls: &Calls,
    name: &dyn Fn() -> String,
    file: &[u8],
) -> Option<[u32; MAP_WORDS]> {
    let (verdict, over) = loads::rust_verdict(file);
    let words = |map: [u32; MAP_WORDS]| map.map(u64::from).to_vec();
    let rust = verdict.as_ref().map(|_| words(map_of_header(file))).map_err(|number| *number);
    let on_paper = paper::load::load(file).map(words);
    let sides = if over { Sides::paper(on_paper) } else { Sides::both(rust, on_paper) };
    let call = |out: &mut [u64]| {
        let mut map = [0; MAP_WORDS];
        let refusal = (calls.load)(file, &mut map);
        if refusal == 0 {
            out[..MAP_WORDS].copy_from_slice(&map.map(u64::from));
        }
        refusal
    };
    let input = || (file.len(), format!("{}, {}", name(), file_shown(file)));
    board.words("bsp_load", MAP_WORDS, sides, call, input);
    let rust = verdict.ok()?;
    let map = map_of_header(file);
    if !over {
        let page = paper::Map::new(file, &map).expect("enough words");
        let difference = groups_differ(&page, &rust);
        board.count_paper("texture groups", difference, input);
        let difference = numbers_differ(&page, &rust);
        board.count_paper("texture numbers", difference, input);
    }
    Some(map)
}

/// What the program on paper says of the textures of a loaded map, beside the Rust's own. A texture is
/// told by its name and first picture.
fn groups_differ(page: &paper::Map, rust: &richter::Map) -> Option<String> {
    let names = page.sound_names().expect("a loaded section reads");
    let (numbers, statics) = numbers(&names);
    let picture = |at: u64| picture(page, at);
    let frames = |number: u64, group: u32| {
        let places = (0..).map_while(|place| page.texture_frame(number, group, place).ok());
        let mut found: Vec<Vec<u8>> = places.map(picture).collect();
        found.sort();
        found
    };
    let mut wanted: Groups = BTreeMap::new();
    for (at, name) in names.iter().enumerate().filter(|(_, name)| name.first() == Some(&b'+')) {
        let number = numbers[at];
        let both = Frames::Animated { primary: frames(number, 0), alternate: frames(number, 1) };
        wanted.insert(name[2..].to_vec(), both);
    }
    let textures = rust.textures();
    let (fixed, moving) = textures.split_at((statics as usize).min(textures.len()));
    for (number, (name, frames)) in fixed.iter().enumerate() {
        let at = page.texture_static(number as u64).ok()?;
        if names[at as usize] != name.as_bytes() || *frames != Frames::Static(picture(at)) {
            return Some(format!("static texture {number}: Rust {name:?}"));
        }
    }
    let found: Groups = moving.iter().map(in_order).collect();
    if found != wanted || fixed.len() + moving.len() != statics as usize + wanted.len() {
        return Some(format!("groups: Rust {}, paper {}", shown(&found), shown(&wanted)));
    }
    infos_differ(rust, &names, &numbers)
}

/// The groups of frames by their stems.
type Groups = BTreeMap<Name, Frames>;

/// A group of the Rust's with its frames in order.
fn in_order((name, frames): &(String, Frames)) -> (Name, Frames) {
    let mut frames = frames.clone();
    if let Frames::Animated { primary, alternate } = &mut frames {
        primary.sort();
        alternate.sort();
    }
    (name.as_bytes().to_vec(), frames)
}

/// The texture infos' own numbers in the Rust beside those on paper.
fn infos_differ(rust: &richter::Map, names: &[Name], numbers: &[u64]) -> Option<String> {
    let textures = rust.textures();
    for (info, own) in rust.texinfos().iter().zip(rust.own_texture_numbers()) {
        let name = &names[info.texture];
        let same = match name.first() {
            Some(b'+') => textures[own].0.as_bytes() == &name[2..],
            _ => own as u64 == numbers[info.texture],
        };
        if !same {
            return Some(format!("texture {} is {own} in the Rust", info.texture));
        }
    }
    None
}

/// The numbers that the program on paper gives all textures of a loaded map, beside the Rust's own list
/// of textures: a static texture's number is its place there, and the numbers of stems are its places of
/// stems but for their order.
fn numbers_differ(page: &paper::Map, rust: &richter::Map) -> Option<String> {
    let names = page.sound_names().expect("a loaded section reads");
    let list = page.texture_numbers().expect("a loaded section reads");
    let textures = rust.textures();
    let statics = names.iter().filter(|name| name.first() != Some(&b'+')).count();
    let (mut there, mut back) = (BTreeMap::new(), BTreeMap::new());
    for (at, name) in names.iter().enumerate() {
        let number = list[at] as usize;
        let place = match name.first() {
            Some(b'+') => {
                let stem = &name[2..];
                statics + textures[statics..].iter().position(|(own, _)| own.as_bytes() == stem)?
            }
            _ if number < statics && textures[number].0.as_bytes() == name => number,
            _ => return Some(format!("static texture {at} has number {number}")),
        };
        let known = *there.entry(number).or_insert(place);
        let own = *back.entry(place).or_insert(number);
        if known != place || own != number || number >= textures.len() {
            return Some(format!("texture {at} has number {number}, in the Rust {place}"));
        }
    }
    None
}

/// The first picture of a texture, as far as the file has it.
fn picture(page: &paper::Map, at: u64) -> Vec<u8> {
    let base = page.offset(paper::TEXTURES);
    let word = |at: u64| {
        let bytes = &page.file[at as usize..at as usize + 4];
        u32::from_le_bytes(bytes.try_into().unwrap())
    };
    let offset = word(base + 4 + 4 * at) as i32;
    if offset < 0 {
        return Vec::new();
    }
    let header = base + offset as u64;
    let size = word(header + 16) as u64 * word(header + 20) as u64;
    let from = (header + word(header + 24) as u64).min(page.file.len() as u64);
    let to = (from + size).min(page.file.len() as u64);
    page.file[from as usize..to as usize].to_vec()
}

/// Every accessor, for numbers in and out of range.
pub fn accessors(board: &mut Board, asked: &Asked, seed: &mut Seed) {
    let Asked { calls, file, map, .. } = *asked;
    let page = asked.paper();
    let count = page.texture_count.min(12);
    let odd = [count, count + 1, u32::MAX as u64, 1 << 32, (1 << 32) + 1, u64::MAX];
    let numbers = || (0..count).chain(odd);
    for index in numbers() {
        let expected = page.texture_words(index);
        let call = |out: &mut [u64]| (calls.texture)(file, map, index, out);
        let input = || asked.input(format!("texture {index}, map {map:?}"));
        board.words("bsp_texture", TEXTURE_WORDS + 2, Sides::paper(expected), call, input);
    }
    for number in numbers() {
        let expected = page.texture_static(number).map(|at| vec![at]);
        let call = |out: &mut [u64]| (calls.texture_static)(file, map, number, out);
        let input = || asked.input(format!("static {number}, map {map:?}"));
        board.words("bsp_texture_static", 2, Sides::paper(expected), call, input);
        for group in [0, 1, 2 + seed.below(9) as u32, u32::MAX] {
            for place in (0..5).chain([odd[seed.below(6) as usize]]) {
                let expected = page.texture_frame(number, group, place).map(|at| vec![at]);
                let call =
                    |out: &mut [u64]| (calls.texture_frame)(file, map, number, group, place, out);
                let what = || asked.input(format!("{number}, {group}, {place}, map {map:?}"));
                board.words("bsp_texture_frame", 2, Sides::paper(expected), call, what);
            }
        }
    }
    for index in 0..page.count(paper::TEXINFOS).min(4) + 1 {
        let section = paper::TEXINFOS as u32;
        let expected = page.record_words(section, index);
        let call = |out: &mut [u64]| (calls.record)(file, map, section, index, out);
        let input = || asked.input(format!("texture info {index}, map {map:?}"));
        board.words("bsp_record", RECORD_WORDS, Sides::paper(expected), call, input);
    }
}

/// The numbers of all textures, in lists of some lengths.
fn all_numbers(board: &mut Board, asked: &Asked, seed: &mut Seed) {
    let Asked { calls, file, map, .. } = *asked;
    let expected = asked.paper().texture_numbers();
    let needed = expected.as_ref().map_or(0, |list| list.len());
    let lent = (lent_list(seed, needed), 1 + seed.below(2) as usize);
    board.list(
        "bsp_texture_numbers",
        lent,
        Sides::paper(expected),
        |list, out| (calls.texture_numbers)(file, map, list, out),
        || asked.input(format!("numbers of all textures, list of {}, map {map:?}", lent.0)),
    );
}

/// Lists that are too short.
fn short_lists(board: &mut Board, asked: &Asked) {
    let Asked { calls, file, map, .. } = *asked;
    let refused = || Sides::paper(Err(22));
    let input = || asked.input("a short list".to_string());
    for lent in 0..MAP_WORDS {
        let map = &map[..lent];
        let call = |out: &mut [u64]| (calls.texture)(file, map, 0, out);
        board.words("bsp_texture", 9, refused(), call, input);
        let call = |out: &mut [u64]| (calls.texture_static)(file, map, 0, out);
        board.words("bsp_texture_static", 9, refused(), call, input);
        let call = |out: &mut [u64]| (calls.texture_frame)(file, map, 0, 0, 0, out);
        board.words("bsp_texture_frame", 9, refused(), call, input);
    }
    for (words, out) in [(0, 1), (MAP_WORDS - 1, 1), (MAP_WORDS, 0)] {
        let map = &map[..words];
        board.list(
            "bsp_texture_numbers",
            (9, out),
            Sides::paper(Err(22)),
            |list, out| (calls.texture_numbers)(file, map, list, out),
            input,
        );
    }
    for lent in 0..TEXTURE_WORDS {
        let call = |out: &mut [u64]| (calls.texture)(file, map, 0, out);
        board.words("bsp_texture", lent, refused(), call, input);
    }
    let call = |out: &mut [u64]| (calls.texture_static)(file, map, 0, out);
    board.words("bsp_texture_static", 0, refused(), call, input);
    let call = |out: &mut [u64]| (calls.texture_frame)(file, map, 0, 0, 0, out);
    board.words("bsp_texture_frame", 0, refused(), call, input);
}

/// The header's places with one of the textures' numbers changed.
fn by_hand(seed: &mut Seed, file: &[u8]) -> [u32; MAP_WORDS] {
    let word = |at: usize| {
        let bytes = file.get(at..at + 4).unwrap_or(&[0; 4]);
        u32::from_le_bytes(bytes.try_into().unwrap())
    };
    let mut map: [u32; MAP_WORDS] = std::array::from_fn(|at| word(4 + 4 * at));
    let at = 2 * paper::TEXTURES;
    map[MAP_WORDS - 1] = word(map[at] as usize).min(9);
    match seed.below(6) {
        0 => map[at] = map[at].wrapping_add(seed.below(9) as u32).wrapping_sub(4),
        1 => map[at] = seed.below(file.len() as u64 + 9) as u32,
        2 => map[MAP_WORDS - 1] = [0, 1, 2_097_152, 2_097_153, u32::MAX][seed.below(5) as usize],
        3 => map[MAP_WORDS - 1] = map[MAP_WORDS - 1].wrapping_sub(1),
        4 => map[MAP_WORDS - 1] = map[MAP_WORDS - 1].saturating_add(1),
        _ => {}
    }
    map
}

/// The smallest map with a texture section, at its end or not, and some texture infos.
pub fn a_file(seed: &mut Seed) -> Vec<u8> {
    let mut tables = Tables::smallest();
    let (textures, count, stop) = a_section(seed);
    tables.textures = textures;
    for _ in 0..seed.below(4) {
        let past = if seed.once_in(8) { 3 } else { 0 };
        let texture = seed.below((count as u64 + past).max(1)) as i32;
        tables.texinfos.push(TexInfo { s: [1.0, 0.0, 0.0, 0.0], t: [0.0; 4], texture, flags: 0 });
    }
    let last = if seed.once_in(3) { record::MODELS } else { record::TEXTURES };
    let mut file = loads::packed(&tables.sections(), last);
    // the section's size is where reading stops, or not
    let at = 4 + 8 * record::TEXTURES;
    let offset = u32::from_le_bytes(file[at..at + 4].try_into().unwrap());
    let there = (file.len() as u32).saturating_sub(offset);
    let mut size = if last == record::TEXTURES { stop.min(there) } else { stop };
    if seed.once_in(12) {
        size = size.wrapping_add(seed.below(5) as u32).wrapping_sub(2) & 0x7fff_ffff;
    }
    file[at + 4..at + 8].copy_from_slice(&size.to_le_bytes());
    if seed.once_in(6) {
        let cut = file.len() - seed.below(60).min(file.len() as u64) as usize;
        file.truncate(cut);
    }
    if seed.once_in(12) {
        let at = seed.below(file.len().max(1) as u64) as usize;
        if let Some(byte) = file.get_mut(at) {
            *byte ^= 1 << seed.below(8);
        }
    }
    file
}

/// A name of 16 bytes.
fn a_name(seed: &mut Seed) -> [u8; 16] {
    let mut name: Vec<u8> = Vec::new();
    if !seed.once_in(3) {
        name.push(b'+');
        let wrong = [b'k', b'/', b':', b'`', b'@', b'K', 0, b'z', 0x80][seed.below(9) as usize];
        let letters = if seed.once_in(2) { 2 } else { 10 };
        let frame = seed.below(letters) as usize;
        name.push(match seed.below(200) {
            0 => wrong,
            1..=120 => b"0123456789"[frame],
            121..=160 => b"abcdefghij"[frame],
            _ => b"ABCDEFGHIJ"[frame],
        });
    }
    let stem = [&b""[..], b"a", b"A", b"b", b"slip", b"Slip", b"longer_than_this"];
    name.extend(stem[seed.below(7) as usize]);
    if seed.once_in(25) {
        let at = seed.below(name.len() as u64 + 1) as usize;
        let byte = [0xc3, 0xff, 0x80][seed.below(3) as usize];
        name.insert(at, byte);
    }
    if name.len() < 16 {
        name.push(0);
    }
    while name.len() < 16 {
        name.push(seed.next() as u8);
    }
    name[..16].try_into().unwrap()
}

/// A section's bytes, its count, and where reading stops if the file goes on.
fn a_section(seed: &mut Seed) -> (Vec<u8>, usize, u32) {
    let count = seed.below(9) as usize;
    let mut section = vec![0; 4 + 4 * count];
    section[..4].copy_from_slice(&(count as u32).to_le_bytes());
    let mut headers: Vec<u32> = Vec::new();
    let mut stop = section.len() as u32;
    for index in 0..count {
        let offset = match seed.below(16) {
            0 => -1,
            1 if seed.once_in(8) => -2 - seed.below(9) as i32,
            2 if !headers.is_empty() => headers[seed.below(headers.len() as u64) as usize] as i32,
            3 if seed.once_in(8) => seed.below(section.len() as u64 + 40) as i32,
            _ => {
                let at = section.len() as u32;
                headers.push(at);
                a_header(seed, &mut section);
                at as i32
            }
        };
        section[4 + 4 * index..8 + 4 * index].copy_from_slice(&offset.to_le_bytes());
        if offset >= 0 && offset as usize + 40 <= section.len() {
            let word = |at: usize| u32::from_le_bytes(section[at..at + 4].try_into().unwrap());
            let at = offset as usize;
            let size = (word(at + 16) as u64 / 8) * (word(at + 20) as u64 / 8);
            stop = (offset as u64 + word(at + 36) as u64 + size).min(1 << 30) as u32;
        }
    }
    (section, count, stop)
}

/// A header with its pictures behind it, now and then elsewhere.
fn a_header(seed: &mut Seed, section: &mut Vec<u8>) {
    section.extend(a_name(seed));
    let side = |seed: &mut Seed| [0u32, 8, 8, 16, 7, 24][seed.below(6) as usize];
    let (width, height) = (side(seed), side(seed));
    section.extend(width.to_le_bytes());
    section.extend(height.to_le_bytes());
    let mut at = 40;
    for level in 0..4 {
        let odd = seed.once_in(40);
        let place = if odd { seed.below(2000) as u32 } else { at };
        section.extend(place.to_le_bytes());
        at += (width >> level) * (height >> level);
    }
    let picture = seed.next() as u8;
    let end = section.len() + at as usize - 40;
    section.resize(end, picture);
}

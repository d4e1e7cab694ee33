//! The time of loading texture sections of a usual size and of the largest, beside the Rust's, and of
//! the numbers of all textures, which the Rust has no call for; in seconds.

use maps::record::{self, Tables};

use crate::calls::Calls;
use crate::modes::loads::packed;
use crate::paper::MAP_WORDS;
use crate::times::bench::clock;

/// The most textures.
const MOST: usize = 2_097_152;

pub fn run() -> bool {
    let calls = Calls::linked();
    println!(
        "texture sections: seconds of the thread's processor time, of the usual one the least"
    );
    println!("of 20 turns of 200 calls, of the largest one call, of which the Rust's takes long");
    println!("{:28} {:>9} {:>10} {:>10} {:>12}", "section", "bytes", "load", "Rust", "all numbers");
    for (name, file, turns, times) in [
        ("usual, 30 of 200 animated", usual(), 20, 200),
        ("one header", one_header(), 1, 1),
        ("different stems", different(), 1, 1),
    ] {
        let (mut map, mut list, mut count) = ([0; MAP_WORDS], vec![0; MOST], [0]);
        assert_eq!((calls.load)(&file, &mut map), 0, "{name} loads");
        let (mut here, mut rust, mut numbers) = (f64::MAX, f64::MAX, f64::MAX);
        for _ in 0..turns {
            let mut loaded = [0; MAP_WORDS];
            here = here.min(seconds(times, || assert_eq!((calls.load)(&file, &mut loaded), 0)));
            rust = rust.min(seconds(times, || assert!(richter::load(&file).is_ok())));
            numbers = numbers.min(seconds(times, || {
                assert_eq!((calls.texture_numbers)(&file, &map, &mut list, &mut count), 0);
            }));
        }
        let size = file.len();
        println!("{name:28} {size:9} {here:10.6} {rust:10.6} {numbers:12.6}");
    }
    true
}

/// The seconds of one call, of so many, by the processor time of this thread.
fn seconds(times: u32, mut call: impl FnMut()) -> f64 {
    let start = clock();
    for _ in 0..times {
        call();
    }
    (clock() - start) / 1e9 / times as f64
}

/// The smallest map with a texture section at its end, whose size is where reading stops.
fn file_of(section: Vec<u8>) -> Vec<u8> {
    let word = |at: usize| u32::from_le_bytes(section[at..at + 4].try_into().unwrap()) as u64;
    let last = word(word(0) as usize * 4);
    let header = last as usize;
    let from = last + word(header + 36);
    let size = (word(header + 16) / 8) * (word(header + 20) / 8);
    let stop = from + size.min((section.len() as u64).saturating_sub(from));
    let tables = Tables { textures: section, ..Tables::smallest() };
    let mut file = packed(&tables.sections(), record::TEXTURES);
    let at = 8 + 8 * record::TEXTURES;
    file[at..at + 4].copy_from_slice(&(stop as u32).to_le_bytes());
    file
}

/// A section of so many textures whose offsets stand before `bytes`.
fn section(offsets: &[usize], bytes: &[u8]) -> Vec<u8> {
    let base = 4 + 4 * offsets.len();
    let mut section = (offsets.len() as u32).to_le_bytes().to_vec();
    section.extend(offsets.iter().flat_map(|at| ((base + at) as u32).to_le_bytes()));
    section.extend(bytes);
    section
}

/// A header of a side, with its pictures.
fn header(name: &str, side: u32) -> Vec<u8> {
    let mut bytes = name.as_bytes().to_vec();
    bytes.resize(16, 0);
    bytes.extend([side, side].into_iter().flat_map(u32::to_le_bytes));
    let mut at: u32 = 40;
    for level in 0..4 {
        bytes.extend(at.to_le_bytes());
        at += (side >> level) * (side >> level);
    }
    bytes.resize(at as usize, 7);
    bytes
}

fn usual() -> Vec<u8> {
    let (mut offsets, mut bytes) = (Vec::new(), Vec::new());
    for at in 0..200 {
        let animated = format!("+{}water{}", at % 6, at / 6);
        let name = if at < 30 { animated } else { format!("wall{}_{}", at / 7, at % 7) };
        offsets.push(bytes.len());
        bytes.extend(header(&name, 64));
    }
    file_of(section(&offsets, &bytes))
}

fn one_header() -> Vec<u8> {
    file_of(section(&vec![0; MOST], &header("+0water", 8)))
}

/// Headers that overlap, one every three bytes.
fn different() -> Vec<u8> {
    let letters = b"abcdefghijklmnopqrstuvwxyz0123456789_-!#$%&()*,./:;<=>?@[]^`";
    let mut state: u64 = 88_172_645_463_325_252;
    let mut bytes = Vec::new();
    for _ in 0..MOST + 20 {
        state ^= state << 13;
        state ^= state >> 7;
        state ^= state << 17;
        bytes.extend([b'+', b'0', letters[(state % letters.len() as u64) as usize]]);
    }
    let offsets: Vec<usize> = (0..MOST).map(|at| 3 * at).collect();
    file_of(section(&offsets, &bytes))
}

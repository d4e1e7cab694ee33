//! Cut and changed copies of a file.

use crate::record::{HEADER, SECTIONS};
use crate::Seed;

/// The file cut at each byte, the empty one first and the whole one last.
pub fn cuts(file: &[u8]) -> impl Iterator<Item = &[u8]> {
    (0..=file.len()).map(move |len| &file[..len])
}

/// Copies with one byte changed: each byte, to each of six other values.
pub fn changes(file: &[u8]) -> impl Iterator<Item = Vec<u8>> + '_ {
    (0..file.len()).flat_map(move |at| {
        let was = file[at];
        let mut to =
            vec![0, 1, 0x7f, 0x80, 0xff, was.wrapping_add(1), was.wrapping_sub(1), was ^ 0x80];
        to.sort_unstable();
        to.dedup();
        to.retain(|byte| *byte != was);
        to.into_iter().map(move |byte| {
            let mut copy = file.to_vec();
            copy[at] = byte;
            copy
        })
    })
}

/// A copy with one to eight places changed: single bytes, 16- and 32-bit fields, the offset or size
/// of a section, a cut, bytes added at the end, a part copied over another.
pub fn random(seed: &mut Seed, file: &[u8]) -> Vec<u8> {
    let mut copy = file.to_vec();
    for _ in 0..1 + seed.below(8) {
        if copy.is_empty() {
            break;
        }
        let len = copy.len() as u64;
        let at = seed.below(len) as usize;
        match seed.below(10) {
            0 | 1 => copy[at] = seed.next() as u8,
            2 => copy[at] ^= 1 << seed.below(8),
            3 => put(&mut copy, at & !1, &word(seed, len).to_le_bytes()[..2]),
            4 => put(&mut copy, at & !3, &word(seed, len).to_le_bytes()),
            5 | 6 if copy.len() >= HEADER => {
                let field = 4 + 4 * seed.below(2 * SECTIONS as u64) as usize;
                let was = i32::from_le_bytes(copy[field..field + 4].try_into().unwrap());
                let to = match seed.below(4) {
                    0 => was.wrapping_add(seed.below(9) as i32 - 4),
                    1 => was.wrapping_add([20, 12, 24, 40, 8, 28, 2, 64][seed.below(8) as usize]),
                    2 => was.wrapping_sub([20, 12, 24, 40, 8, 28, 2, 64][seed.below(8) as usize]),
                    _ => word(seed, len),
                };
                put(&mut copy, field, &to.to_le_bytes());
            }
            7 => copy.truncate(at),
            8 => {
                let more = seed.below(40);
                copy.extend((0..more).map(|_| seed.next() as u8));
            }
            _ => {
                let from = seed.below(len) as usize;
                let many = (seed.below(64) as usize).min(copy.len() - from.max(at));
                copy.copy_within(from..from + many, at);
            }
        }
    }
    copy
}

fn put(copy: &mut [u8], at: usize, bytes: &[u8]) {
    let many = bytes.len().min(copy.len() - at);
    copy[at..at + many].copy_from_slice(&bytes[..many]);
}

fn word(seed: &mut Seed, len: u64) -> i32 {
    match seed.below(8) {
        0 => -1,
        1 => i32::MIN,
        2 => i32::MAX,
        3 => seed.below(20) as i32 - 10,
        4 => seed.below(len + 64) as i32,
        5 => (seed.below(40) as i32 - 20) * 20,
        6 => seed.below(70_000) as i32 - 35_000,
        _ => seed.next() as i32,
    }
}

//! The letters of pictures in pixels: ASCII, five wide and eight high, drawn in font.txt.

use std::sync::OnceLock;

/// Rows of sixteen letters, from the space on: each eight lines of five marks, a # where it is inked.
const DRAWN: &str = include_str!("font.txt");

const FIRST: u32 = 0x20;
const LETTERS: u32 = 95;
const IN_BAND: usize = 16;
const BAND_LINES: usize = 9;

/// The width and the height of a letter, and how far the next one is.
pub const WIDE: usize = 5;
pub const HIGH: usize = 8;
pub const NEXT: usize = 6;

/// A letter's rows from above, the leftmost place in the lowest bit.
type Letter = [u8; HIGH];

/// The letters of font.txt, read once.
fn letters() -> &'static [Letter] {
    static LETTERS: OnceLock<Vec<Letter>> = OnceLock::new();
    LETTERS.get_or_init(|| {
        let lines: Vec<&[u8]> = DRAWN.lines().map(str::as_bytes).collect();
        lines.chunks(BAND_LINES).flat_map(|band| (0..IN_BAND).map(|n| letter(band, n))).collect()
    })
}

/// A letter of a row of letters.
fn letter(band: &[&[u8]], number: usize) -> Letter {
    std::array::from_fn(|y| {
        let marks = band.get(y).and_then(|line| line.get(number * NEXT..)).unwrap_or(&[]);
        let bits = marks.iter().take(WIDE).enumerate();
        bits.map(|(x, mark)| u8::from(*mark == b'#') << x).sum()
    })
}

/// Whether a letter is inked at a place. A letter that is not ASCII is a full box.
pub fn inked(letter: char, x: usize, y: usize) -> bool {
    let number = u32::from(letter).checked_sub(FIRST).filter(|number| *number < LETTERS);
    let drawn = number.and_then(|number| letters().get(number as usize));
    match drawn {
        Some(letter) => letter[y] >> x & 1 == 1,
        None => y < HIGH - 1,
    }
}

#[cfg(test)]
mod tests {
    use super::*;

    #[test]
    fn every_letter_but_the_space_is_inked() {
        let ink = |letter| {
            let places = (0..HIGH).flat_map(|y| (0..WIDE).map(move |x| (x, y)));
            places.filter(|(x, y)| inked(letter, *x, *y)).count()
        };
        assert_eq!(ink(' '), 0);
        for letter in '!'..='~' {
            assert!((1..=24).contains(&ink(letter)), "{letter}: {}", ink(letter));
        }
        assert_eq!(ink('é'), WIDE * (HIGH - 1));
        assert_eq!(ink('\u{1b}'), WIDE * (HIGH - 1));
    }
}

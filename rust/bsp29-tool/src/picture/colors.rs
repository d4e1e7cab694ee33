//! The colors of squares, by their numbers.

use super::scene::Color;
use bsp29::Contents;

/// The numbers of squares that are no contents; those are numbered by their codes, 1 to 14.
pub const REFUSED: u8 = 0;
pub const BORDER: u8 = 15;
pub const FROM_HERE: u8 = 16;
pub const SEEN: u8 = 17;
pub const UNSEEN: u8 = 18;

/// The number of contents.
pub fn number(contents: Contents) -> u8 {
    contents.code() as u8
}

/// Every color by its number.
pub fn colors() -> Vec<Color> {
    (0..=UNSEEN).map(color).collect()
}

fn color(number: u8) -> Color {
    match number {
        REFUSED => [0xe0, 0x00, 0xb0],
        1 => [0xf0, 0xec, 0xe0],
        2 => [0x48, 0x4c, 0x54],
        3 => [0x4a, 0x86, 0xd0],
        4 => [0x7a, 0xa0, 0x38],
        5 => [0xe0, 0x60, 0x20],
        6 => [0xa8, 0xd8, 0xf0],
        9..=14 => [0x50, 0xa8, 0xa8],
        BORDER => [0x90, 0x8c, 0x80],
        FROM_HERE => [0xf0, 0x98, 0x20],
        SEEN => [0xf8, 0xdc, 0x78],
        _ => [0xd8, 0xd8, 0xd8],
    }
}

/// The name of a square's color in the legend.
pub fn name(number: u8) -> Option<String> {
    match number {
        REFUSED => Some("refused".to_string()),
        FROM_HERE => Some("the leaf".to_string()),
        SEEN => Some("seen from it".to_string()),
        UNSEEN => Some("not seen".to_string()),
        _ => Contents::from_code(number.into()).map(|contents| contents.to_string()),
    }
}

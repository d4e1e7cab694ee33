//! What is asked about: the calls, and a file with its map record.

use crate::calls::Calls;
use crate::paper;
use crate::report::board::file_shown;

#[derive(Copy, Clone)]
pub struct Asked<'a> {
    pub calls: &'a Calls,
    /// What to call the file in a message.
    pub name: &'a dyn Fn() -> String,
    pub file: &'a [u8],
    pub map: &'a [u32],
}

impl Asked<'_> {
    pub fn paper(&self) -> paper::Map<'_> {
        paper::Map::new(self.file, self.map).expect("enough words")
    }

    /// The input's size and what to print of it.
    pub fn input(&self, text: String) -> (usize, String) {
        (self.file.len(), format!("{}, {text}, {}", (self.name)(), file_shown(self.file)))
    }
}

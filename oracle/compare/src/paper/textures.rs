//! The texture section, its names and groups, and the numbers that textures get (document 02, note
//! 2).

use std::collections::{HashMap, HashSet};

use super::fields::Reader;
use super::*;

/// The most textures.
const MOST: u64 = 2_097_152;

/// The words of a texture: present or not, the name's 16 bytes, width, height.
pub const TEXTURE_WORDS: usize = 5;

/// A name: lowered, up to its first zero. An absent texture has none.
pub type Name = Vec<u8>;

/// 16 bytes up to the first zero, those past the file's end zeros; 13 where one is not ASCII.
fn name(file: &[u8], at: u64) -> Answer<Name> {
    let bytes = (at..at + 16).map(|at| file.get(at as usize).copied().unwrap_or(0));
    let name: Name = bytes.take_while(|byte| *byte != 0).collect();
    if name.is_ascii() {
        Ok(name.to_ascii_lowercase())
    } else {
        Err(13)
    }
}

/// What is read of a texture, and where reading its fourth picture stops.
pub struct Header {
    name: Name,
    width: u64,
    height: u64,
    stop: u64,
}

pub fn header(file: &[u8], at: u64) -> Answer<Header> {
    let name = name(file, at)?;
    let mut r = Reader::new(file, at + 16);
    let mut fields = [0u64; 6];
    for field in &mut fields {
        *field = r.i32()? as u32 as u64;
    }
    let [width, height, .., fourth] = fields;
    let from = at + fourth;
    let there = (file.len() as u64).saturating_sub(from);
    Ok(Header { name, width, height, stop: from + there.min((width / 8) * (height / 8)) })
}

/// A frame's letter and stem, of a name that starts with a plus sign.
fn frame(name: &Name) -> Option<(u8, &[u8])> {
    match name.as_slice() {
        [b'+', letter, stem @ ..] => Some((*letter, stem)),
        _ => None,
    }
}

fn is_animated(name: &Name) -> bool {
    name.first() == Some(&b'+')
}

/// 14, then 15.
fn groups(names: &[Name]) -> Answer<()> {
    let mut primary = HashSet::new();
    for name in names.iter().filter(|name| is_animated(name)) {
        match frame(name) {
            Some((b'0'..=b'9', stem)) => {
                primary.insert(stem);
            }
            Some((b'a'..=b'j', _)) => {}
            _ => return Err(14),
        }
    }
    let mut alternate = names.iter().filter_map(frame).filter(|(letter, _)| *letter >= b'a');
    match alternate.any(|(_, stem)| !primary.contains(stem)) {
        true => Err(15),
        false => Ok(()),
    }
}

/// The numbers of textures: of each by its number in the file, and how many are static.
pub fn numbers(names: &[Name]) -> (Vec<u64>, u64) {
    let statics = names.iter().filter(|name| !is_animated(name)).count() as u64;
    let mut stems: HashMap<&[u8], u64> = HashMap::new();
    let mut next = 0;
    let number = |name| match frame(name) {
        None => {
            next += 1;
            next - 1
        }
        Some((_, stem)) => {
            let further = statics + stems.len() as u64;
            *stems.entry(stem).or_insert(further)
        }
    };
    (names.iter().map(number).collect(), statics)
}

impl Map<'_> {
    /// The names of so many textures, and where reading stops: offsets (1, 10), then headers.
    fn texture_names(&self) -> Answer<(Vec<Name>, u64)> {
        let base = self.offset(TEXTURES);
        let mut r = Reader::new(self.file, base + 4);
        let mut offsets = Vec::new();
        for _ in 0..self.texture_count {
            offsets.push(match r.i32()? {
                -1 => None,
                offset if offset < 0 => return Err(10),
                offset => Some(offset as u64),
            });
        }
        let mut stop = r.at;
        let mut names = Vec::new();
        for offset in offsets {
            names.push(match offset {
                None => Vec::new(),
                Some(offset) => {
                    let header = header(self.file, base + offset)?;
                    stop = header.stop;
                    header.name
                }
            });
        }
        Ok((names, stop))
    }

    /// The section on loading, behind its count.
    pub fn textures(&self) -> Answer<()> {
        let (names, stop) = self.texture_names()?;
        if stop != self.offset(TEXTURES) + self.size(TEXTURES) {
            return Err(7);
        }
        groups(&names)
    }

    /// The names of a section that reads as on loading, its end aside; else 23.
    pub fn sound_names(&self) -> Answer<Vec<Name>> {
        if self.texture_count > MOST {
            return Err(23);
        }
        let (names, _) = self.texture_names().map_err(|_| 23u32)?;
        groups(&names).map_err(|_| 23u32)?;
        Ok(names)
    }

    /// The new number of a texture of the file; 23 where there is none.
    pub fn texture_number(&self, texture: u64) -> Answer<u64> {
        if texture >= self.texture_count {
            return Err(23);
        }
        Ok(numbers(&self.sound_names()?).0[texture as usize])
    }

    /// The new numbers of all textures, by their numbers in the file.
    pub fn texture_numbers(&self) -> Answer<Vec<u32>> {
        let (numbers, _) = numbers(&self.sound_names()?);
        Ok(numbers.into_iter().map(|number| number as u32).collect())
    }

    /// The static texture of a new number.
    pub fn texture_static(&self, number: u64) -> Answer<u64> {
        let names = self.sound_names()?;
        let found = (0..names.len()).filter(|at| !is_animated(&names[*at]));
        let found = found.map(|at| at as u64).nth(usize::try_from(number).unwrap_or(usize::MAX));
        found.ok_or(20)
    }

    /// The texture at a place of a group of the animated texture of a new number.
    pub fn texture_frame(&self, number: u64, group: u32, place: u64) -> Answer<u64> {
        let names = self.sound_names()?;
        let letters = match group {
            0 => b'0'..=b'9',
            1 => b'a'..=b'j',
            _ => return Err(20),
        };
        let (numbers, _) = numbers(&names);
        let in_group = |at: &usize| match frame(&names[*at]) {
            Some((letter, _)) => numbers[*at] == number && letters.contains(&letter),
            None => false,
        };
        let mut found: Vec<usize> = (0..names.len()).filter(in_group).collect();
        found.sort_by(|a, b| names[*a].cmp(&names[*b]).then(a.cmp(b)));
        let place = usize::try_from(place).unwrap_or(usize::MAX);
        found.get(place).map(|at| *at as u64).ok_or(20)
    }

    /// The words of the texture of a number in the file.
    pub fn texture_words(&self, index: u64) -> Answer<Vec<u64>> {
        if index >= self.texture_count {
            return Err(20);
        }
        if self.texture_count > MOST {
            return Err(23);
        }
        let base = self.offset(TEXTURES);
        let offset = Reader::new(self.file, base + 4 + 4 * index).i32().map_err(|_| 23u32)?;
        if offset == -1 {
            return Ok(vec![0; TEXTURE_WORDS]);
        }
        if offset < 0 {
            return Err(23);
        }
        let header = header(self.file, base + offset as u64).map_err(|_| 23u32)?;
        let mut name = header.name;
        name.resize(16, 0);
        let word = |bytes: &[u8]| u64::from_le_bytes(bytes.try_into().unwrap());
        Ok(vec![1, word(&name[..8]), word(&name[8..]), header.width, header.height])
    }
}

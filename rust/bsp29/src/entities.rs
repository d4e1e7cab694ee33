//! The entity text taken apart: pairs of keys and values. Plain Rust; it is not among what is proved.

use crate::{MapOf, Refusal};
use std::fmt;
use std::iter::FusedIterator;

/// The entities of a text, one after the other, each or what is wrong with it; after an error there are
/// none.
///
/// An entity is `{`, pairs of strings (a key and a value) and `}`. A string stands in quotes and has
/// everything up to the next quote; there is no way to write a quote in one. Between these there may be
/// white space (every character up to the space) and comments, from `//` to the line's end.
///
/// Nothing is copied but the list of an entity's pairs, and the time grows with the text.
///
/// ```
/// use bsp29::Entities;
///
/// let text = "{ \"classname\" \"worldspawn\" } // the world\n{\"classname\" \"light\" \"light\" \"200\"}";
/// let entities: Vec<_> = Entities::new(text).collect::<Result<_, _>>()?;
/// assert_eq!(entities[1].get("light"), Some("200"));
/// assert_eq!(entities[0].pairs(), [("classname", "worldspawn")]);
///
/// let error = Entities::new("{\n\"classname\" }").next().unwrap().unwrap_err();
/// assert_eq!(error.to_string(), "line 2, byte 14: a value in quotes was expected");
/// # Ok::<(), bsp29::EntityError>(())
/// ```
#[derive(Clone, Debug)]
pub struct Entities<'t> {
    text: &'t str,
    at: usize,
}

/// An entity of a text.
#[derive(Clone, Debug, PartialEq, Eq)]
pub struct Entity<'t> {
    byte: usize,
    pairs: Vec<(&'t str, &'t str)>,
}

impl<'t> Entity<'t> {
    /// Its keys with their values, in the text's order.
    pub fn pairs(&self) -> &[(&'t str, &'t str)] {
        &self.pairs
    }

    /// The value of a key. A key may stand there more than once: the last one counts, as in the engine.
    ///
    /// ```
    /// let mut entities = bsp29::Entities::new("{ \"a\" \"1\" \"b\" \"2\" \"a\" \"3\" }");
    /// let entity = entities.next().unwrap()?;
    /// assert_eq!((entity.get("a"), entity.get("c")), (Some("3"), None));
    /// # Ok::<(), bsp29::EntityError>(())
    /// ```
    pub fn get(&self, key: &str) -> Option<&'t str> {
        self.pairs.iter().rev().find(|pair| pair.0 == key).map(|pair| pair.1)
    }

    /// Where its `{` stands in the text.
    pub fn byte(&self) -> usize {
        self.byte
    }
}

/// What is wrong with an entity text.
#[derive(Copy, Clone, Debug, PartialEq, Eq, Hash)]
#[non_exhaustive]
pub enum EntityFault {
    /// Something else than `{` stands where an entity begins.
    NoEntity,
    /// Something else than a string or `}` stands where a key is due, or the text ends there.
    NoKey,
    /// Something else than a string stands where a value is due, or the text ends there.
    NoValue,
    /// A string has no quote at its end.
    OpenString,
}

/// What is wrong with an entity text, and where.
#[derive(Copy, Clone, Debug, PartialEq, Eq, Hash)]
pub struct EntityError {
    /// What is wrong.
    pub fault: EntityFault,
    /// The byte of the text, from 0; of a string without end its first quote.
    pub byte: usize,
    /// The line of the text, from 1.
    pub line: usize,
}

impl fmt::Display for EntityError {
    fn fmt(&self, f: &mut fmt::Formatter<'_>) -> fmt::Result {
        let what = match self.fault {
            EntityFault::NoEntity => "a { was expected",
            EntityFault::NoKey => "a key in quotes or a } was expected",
            EntityFault::NoValue => "a value in quotes was expected",
            EntityFault::OpenString => "a string does not end",
        };
        write!(f, "line {}, byte {}: {what}", self.line, self.byte)
    }
}

impl std::error::Error for EntityError {}

impl<'t> Entities<'t> {
    /// The entities of a text.
    pub fn new(text: &'t str) -> Entities<'t> {
        Entities { text, at: 0 }
    }

    /// Goes past white space and comments, and says which byte stands there.
    fn peek(&mut self) -> Option<u8> {
        let bytes = self.text.as_bytes();
        loop {
            match bytes.get(self.at..)? {
                [byte, ..] if *byte <= b' ' => self.at += 1,
                [b'/', b'/', rest @ ..] => {
                    let line = rest.iter().position(|byte| *byte == b'\n');
                    self.at = line.map_or(bytes.len(), |line| self.at + 2 + line);
                }
                rest => return rest.first().copied(),
            }
        }
    }

    /// The string that begins here, at its quote.
    fn string(&mut self) -> Result<&'t str, EntityError> {
        let text = self.text;
        let start = self.at + 1;
        let Some(length) = text.get(start..).and_then(|rest| rest.find('"')) else {
            return Err(self.error(EntityFault::OpenString));
        };
        self.at = start + length + 1;
        Ok(&text[start..start + length])
    }

    /// The entity that begins here, at its `{`.
    fn entity(&mut self) -> Result<Entity<'t>, EntityError> {
        let mut entity = Entity { byte: self.at, pairs: Vec::new() };
        self.at += 1;
        loop {
            match self.peek() {
                Some(b'"') => {}
                Some(b'}') => break self.at += 1,
                _ => return Err(self.error(EntityFault::NoKey)),
            }
            let key = self.string()?;
            if self.peek() != Some(b'"') {
                return Err(self.error(EntityFault::NoValue));
            }
            entity.pairs.push((key, self.string()?));
        }
        Ok(entity)
    }

    /// The fault here.
    fn error(&self, fault: EntityFault) -> EntityError {
        let before = self.text.as_bytes().iter().take(self.at);
        let line = 1 + before.filter(|byte| **byte == b'\n').count();
        EntityError { fault, byte: self.at, line }
    }
}

impl<'t> Iterator for Entities<'t> {
    type Item = Result<Entity<'t>, EntityError>;
    fn next(&mut self) -> Option<Self::Item> {
        let entity = match self.peek()? {
            b'{' => self.entity(),
            _ => Err(self.error(EntityFault::NoEntity)),
        };
        if entity.is_err() {
            self.at = self.text.len();
        }
        Some(entity)
    }
}

impl FusedIterator for Entities<'_> {}

impl<B: AsRef<[u8]>> MapOf<B> {
    /// The entities of the map, taken apart. Refuses as [`entity_text`](MapOf::entity_text) does, which it
    /// never does on a map that was loaded; what is wrong with the text itself each entity says.
    ///
    /// ```
    /// # let file = std::fs::read(concat!(env!("CARGO_MANIFEST_DIR"), "/../../maps/rooms.bsp")).unwrap();
    /// let map = bsp29::Map::load(&file)?;
    /// for entity in map.parsed_entities()? {
    ///     println!("{}", entity?.get("classname").unwrap_or("no class"));
    /// }
    /// # Ok::<(), Box<dyn std::error::Error>>(())
    /// ```
    pub fn parsed_entities(&self) -> Result<Entities<'_>, Refusal> {
        self.entity_text().map(Entities::new)
    }
}

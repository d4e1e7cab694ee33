//! The file's layout: its sections, their limits and the fields of their records, and the bytes of any
//! file read by it, whether it loads or not.

use serde::ser::SerializeMap;
use serde::{Serialize, Serializer};
use std::fmt;

/// How the bytes of a field are read.
#[derive(Copy, Clone, Debug, PartialEq, Eq)]
pub enum Kind {
    U8,
    U16,
    I16,
    I32,
    F32,
}

impl Kind {
    /// How many bytes one has.
    pub fn size(self) -> usize {
        match self {
            Kind::U8 => 1,
            Kind::U16 | Kind::I16 => 2,
            Kind::I32 | Kind::F32 => 4,
        }
    }
}

/// A field of a record: so many numbers of one kind.
pub type Field = (&'static str, Kind, usize);

/// A section of the file.
pub struct Section {
    /// Its name here and in the arguments.
    pub name: &'static str,
    /// The fields of a record; none where the section is bytes or text.
    pub fields: &'static [Field],
    /// The most records, or bytes, that it may have.
    pub limit: Option<usize>,
}

use Kind::{F32, I16, I32, U16, U8};

const PLANE: &[Field] = &[("normal", F32, 3), ("dist", F32, 1), ("kind", I32, 1)];
const VERTEX: &[Field] = &[("point", F32, 3)];
const RENDER_NODE: &[Field] = &[
    ("plane", I32, 1),
    ("front", I16, 1),
    ("back", I16, 1),
    ("min", I16, 3),
    ("max", I16, 3),
    ("face", U16, 1),
    ("face_count", U16, 1),
];
const TEXTURE_INFO: &[Field] = &[
    ("s", F32, 3),
    ("s_offset", F32, 1),
    ("t", F32, 3),
    ("t_offset", F32, 1),
    ("texture", I32, 1),
    ("flags", I32, 1),
];
const FACE: &[Field] = &[
    ("plane", U16, 1),
    ("side", U16, 1),
    ("edge", I32, 1),
    ("edge_count", U16, 1),
    ("texture_info", U16, 1),
    ("light_styles", U8, 4),
    ("lightmap", I32, 1),
];
const CLIP_NODE: &[Field] = &[("plane", I32, 1), ("front", I16, 1), ("back", I16, 1)];
const LEAF: &[Field] = &[
    ("contents", I32, 1),
    ("visibility", I32, 1),
    ("min", I16, 3),
    ("max", I16, 3),
    ("face_list", U16, 1),
    ("face_list_count", U16, 1),
    ("sounds", U8, 4),
];
const FACE_LIST: &[Field] = &[("face", U16, 1)];
const EDGE: &[Field] = &[("vertices", U16, 2)];
const EDGE_LIST: &[Field] = &[("edge", I32, 1)];
const MODEL: &[Field] = &[
    ("min", F32, 3),
    ("max", F32, 3),
    ("origin", F32, 3),
    ("hull_roots", I32, 4),
    ("leaf_count", I32, 1),
    ("face", I32, 1),
    ("face_count", I32, 1),
];

const fn section(name: &'static str, fields: &'static [Field], limit: Option<usize>) -> Section {
    Section { name, fields, limit }
}

/// The fifteen sections, in the file's order.
pub const SECTIONS: [Section; 15] = [
    section("entities", &[], Some(65_536)),
    section("planes", PLANE, Some(8_192)),
    section("textures", &[], None),
    section("vertices", VERTEX, Some(65_535)),
    section("visibility", &[], Some(1_048_576)),
    section("render-nodes", RENDER_NODE, Some(32_767)),
    section("texture-infos", TEXTURE_INFO, None),
    section("faces", FACE, None),
    section("lightmaps", &[], None),
    section("clip-nodes", CLIP_NODE, Some(32_767)),
    section("leaves", LEAF, Some(32_767)),
    section("face-list", FACE_LIST, None),
    section("edges", EDGE, Some(256_000)),
    section("edge-list", EDGE_LIST, Some(512_000)),
    section("models", MODEL, Some(256)),
];

pub const TEXTURES: usize = 2;
pub const VISIBILITY: usize = 4;
pub const RENDER_NODES: usize = 5;
pub const FACES: usize = 7;
pub const CLIP_NODES: usize = 9;
pub const LEAVES: usize = 10;
pub const EDGES: usize = 12;
pub const EDGE_LIST_SECTION: usize = 13;
pub const MODELS: usize = 14;

impl Section {
    /// How many bytes a record has; 1 where the section is bytes.
    pub fn record_size(&self) -> usize {
        let size: usize = self.fields.iter().map(|(_, kind, count)| kind.size() * count).sum();
        size.max(1)
    }

    /// Where a field begins in a record.
    pub fn field_offset(&self, name: &str) -> usize {
        let before = self.fields.iter().take_while(|(field, ..)| *field != name);
        before.map(|(_, kind, count)| kind.size() * count).sum()
    }
}

/// The bytes of the version, and of an entry of the directory: a section's offset and size.
pub const VERSION: usize = 4;
pub const ENTRY: usize = 8;

/// The bytes before the first section: the version, and an entry for each section.
pub const HEADER: usize = VERSION + ENTRY * SECTIONS.len();

/// Where a section lies, as the file says it. Both may be any numbers.
#[derive(Copy, Clone, Debug, PartialEq, Eq)]
pub struct Span {
    pub offset: i32,
    pub size: i32,
}

/// What the beginning of any file says, as far as it goes.
pub struct Directory {
    pub version: Option<i32>,
    spans: [Option<Span>; SECTIONS.len()],
}

impl Directory {
    pub fn read(bytes: &[u8]) -> Directory {
        let span = |number: usize| {
            let at = VERSION + ENTRY * number;
            Some(Span { offset: int(bytes, at)?, size: int(bytes, at + 4)? })
        };
        Directory { version: int(bytes, 0), spans: std::array::from_fn(span) }
    }

    /// Where a section lies.
    pub fn span(&self, section: usize) -> Option<Span> {
        self.spans.get(section).copied().flatten()
    }

    /// The bytes of a section, as far as they lie in the file.
    pub fn bytes<'a>(&self, bytes: &'a [u8], section: usize) -> &'a [u8] {
        let size = self.span(section).map_or(0, |span| usize::try_from(span.size).unwrap_or(0));
        let from = self.position(section, 0).and_then(|at| bytes.get(at..)).unwrap_or(&[]);
        &from[..size.min(from.len())]
    }

    /// How many whole records a section says it has.
    pub fn count(&self, section: usize) -> usize {
        let size = self.span(section).map_or(0, |span| usize::try_from(span.size).unwrap_or(0));
        SECTIONS.get(section).map_or(0, |section| size / section.record_size())
    }

    /// Where a record begins, if that is a position at all.
    pub fn position(&self, section: usize, record: usize) -> Option<usize> {
        let offset = usize::try_from(self.span(section)?.offset).ok()?;
        record.checked_mul(SECTIONS.get(section)?.record_size())?.checked_add(offset)
    }

    /// The record of a section, as far as it lies in the file.
    pub fn record(&self, bytes: &[u8], section: usize, record: usize) -> Option<Fields> {
        let at = self.position(section, record)?;
        Fields::read(bytes, SECTIONS.get(section)?, at)
    }
}

fn array<const N: usize>(bytes: &[u8], at: usize) -> Option<[u8; N]> {
    bytes.get(at..at.checked_add(N)?)?.try_into().ok()
}

/// The signed number of four bytes.
pub fn int(bytes: &[u8], at: usize) -> Option<i32> {
    array(bytes, at).map(i32::from_le_bytes)
}

/// The number of a field.
#[derive(Copy, Clone, Debug, PartialEq, Serialize)]
#[serde(untagged)]
pub enum Number {
    Int(i64),
    Float(f32),
}

impl Number {
    fn read(bytes: &[u8], kind: Kind, at: usize) -> Option<Number> {
        Some(match kind {
            U8 => Number::Int(i64::from(*bytes.get(at)?)),
            U16 => Number::Int(i64::from(u16::from_le_bytes(array(bytes, at)?))),
            I16 => Number::Int(i64::from(i16::from_le_bytes(array(bytes, at)?))),
            I32 => Number::Int(i64::from(int(bytes, at)?)),
            F32 => Number::Float(f32::from_le_bytes(array(bytes, at)?)),
        })
    }
}

impl fmt::Display for Number {
    fn fmt(&self, f: &mut fmt::Formatter<'_>) -> fmt::Result {
        match self {
            Number::Int(number) => write!(f, "{number}"),
            Number::Float(number) => write!(f, "{number}"),
        }
    }
}

/// A field read from the file: where it is, and its numbers.
pub struct Read {
    pub name: &'static str,
    pub at: usize,
    pub numbers: Vec<Number>,
}

impl fmt::Display for Read {
    fn fmt(&self, f: &mut fmt::Formatter<'_>) -> fmt::Result {
        let numbers: Vec<String> = self.numbers.iter().map(Number::to_string).collect();
        f.write_str(&numbers.join(" "))
    }
}

/// The fields of a record of the file.
pub struct Fields(pub Vec<Read>);

impl Fields {
    fn read(bytes: &[u8], section: &Section, at: usize) -> Option<Fields> {
        let mut at = at;
        let mut fields = Vec::new();
        for &(name, kind, count) in section.fields {
            let size = kind.size();
            let numbers: Option<Vec<Number>> =
                (0..count).map(|n| Number::read(bytes, kind, at.checked_add(n * size)?)).collect();
            fields.push(Read { name, at, numbers: numbers? });
            at += size * count;
        }
        Some(Fields(fields))
    }
}

impl fmt::Display for Fields {
    fn fmt(&self, f: &mut fmt::Formatter<'_>) -> fmt::Result {
        for (n, field) in self.0.iter().enumerate() {
            let between = if n == 0 { "" } else { ", " };
            write!(f, "{between}{} {field}", field.name)?;
        }
        Ok(())
    }
}

impl Serialize for Fields {
    fn serialize<S: Serializer>(&self, serializer: S) -> Result<S::Ok, S::Error> {
        let mut map = serializer.serialize_map(Some(self.0.len()))?;
        for field in &self.0 {
            match field.numbers.as_slice() {
                [number] => map.serialize_entry(field.name, number)?,
                numbers => map.serialize_entry(field.name, numbers)?,
            }
        }
        map.end()
    }
}

#[cfg(test)]
mod tests {
    use super::*;

    #[test]
    fn records_have_their_sizes() {
        let sizes: Vec<usize> = SECTIONS.iter().map(Section::record_size).collect();
        assert_eq!(sizes, [1, 20, 1, 12, 1, 24, 40, 20, 1, 8, 28, 2, 4, 4, 64]);
        assert_eq!(SECTIONS[LEAVES].field_offset("face_list"), 20);
    }

    #[test]
    fn any_bytes_have_a_directory() {
        for length in 0..200 {
            let bytes = vec![0xff; length];
            let directory = Directory::read(&bytes);
            assert_eq!(directory.version.is_some(), length >= 4);
            for section in 0..20 {
                assert_eq!(directory.count(section), 0);
                assert!(directory.record(&bytes, section, usize::MAX).is_none());
            }
        }
    }
}

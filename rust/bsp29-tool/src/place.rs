//! Where in a file something was refused.

use crate::layout::{Directory, SECTIONS, TEXTURES, VERSION};
use bsp29::{load_place, NodeTable};
use serde::{Deserialize, Serialize};

/// A place in a file.
#[derive(Clone, Debug, PartialEq, Serialize, Deserialize)]
pub struct Place {
    /// The section's name; `header` for the version and the directory.
    pub section: String,
    /// The record in the section.
    pub record: Option<usize>,
    /// The position in the file.
    pub byte: Option<usize>,
    /// The name of the field in the record.
    pub field: Option<String>,
    /// What is wrong there, in words.
    pub what: Option<String>,
}

impl Place {
    /// The number of the section; none for the header.
    pub fn section_number(&self) -> Option<usize> {
        SECTIONS.iter().position(|section| section.name == self.section)
    }

    /// The place in a few words.
    pub fn words(&self) -> String {
        let mut words = self.section.clone();
        if let Some(record) = self.record {
            words += &format!(" {record}");
        }
        if let Some(field) = &self.field {
            words += &format!(", {field}");
        }
        if let Some(byte) = self.byte {
            words += &format!(", byte {byte}");
        }
        words
    }
}

/// What a picture marks of a place.
#[derive(Clone, Debug, PartialEq)]
pub enum Mark {
    Face(usize),
    Leaf(usize),
    Model(usize),
    Tree { model: usize, hull: usize, table: NodeTable, node: usize },
}

/// Where loading refused a file; none where it loads.
pub fn of_loading(bytes: &[u8]) -> Option<Place> {
    let place = load_place(bytes)?;
    Some(match place.section {
        Some(section) => in_section(bytes, section.number() as usize, place.record, place.byte),
        None => in_header(bytes, place.record, place.byte),
    })
}

/// The version, or the entry of a section in the directory.
fn in_header(bytes: &[u8], record: usize, byte: usize) -> Place {
    let directory = Directory::read(bytes);
    let entry = SECTIONS.get(record).filter(|_| byte >= VERSION);
    let what = match (entry, directory.version) {
        (Some(section), _) => directory
            .span(record)
            .map(|span| format!("{} at offset {}, {} bytes", section.name, span.offset, span.size)),
        (None, version) => version.map(|version| format!("version {version}")),
    };
    Place {
        section: "header".to_string(),
        record: entry.map(|_| record),
        byte: Some(byte),
        field: None,
        what,
    }
}

/// A record of a section, with what the file has there; of a section of bytes or text only the place.
fn in_section(bytes: &[u8], section: usize, record: usize, byte: usize) -> Place {
    let layout = &SECTIONS[section];
    let fields = match layout.fields {
        [] => None,
        _ => Directory::read(bytes).record(bytes, section, record),
    };
    Place {
        section: layout.name.to_string(),
        record: (section == TEXTURES || !layout.fields.is_empty()).then_some(record),
        byte: Some(byte),
        field: None,
        what: fields.map(|fields| fields.to_string()),
    }
}

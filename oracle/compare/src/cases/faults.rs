//! Things that can be wrong with a map, each a few bytes at one place, so that any two of them show
//! which one loading meets first.

use maps::record::*;

use crate::modes::records::map_of_header;
use crate::paper;

pub struct Fault {
    pub name: String,
    at: usize,
    bytes: Vec<u8>,
}

impl Fault {
    pub fn put(&self, file: &mut [u8]) {
        if let Some(place) = file.get_mut(self.at..self.at + self.bytes.len()) {
            place.copy_from_slice(&self.bytes);
        }
    }
}

struct Faults {
    map: [u32; 31],
    list: Vec<Fault>,
}

/// Every fault of a map that has at least two records in each section.
pub fn all(file: &[u8]) -> Vec<Fault> {
    let mut faults = Faults { map: map_of_header(file), list: Vec::new() };
    faults.add("version".to_string(), 0, &28i32.to_le_bytes());
    for section in 0..SECTIONS {
        faults.places(section, file.len() as i32);
    }
    faults.texts();
    faults.fields();
    faults.list
}

impl Faults {
    fn add(&mut self, name: String, at: usize, bytes: &[u8]) {
        self.list.push(Fault { name, at, bytes: bytes.to_vec() });
    }

    fn count(&self, section: usize) -> i32 {
        self.map[2 * section + 1] as i32 / SIZES[section] as i32
    }

    /// A section's offset and size.
    fn places(&mut self, section: usize, len: i32) {
        let at = 4 + 8 * section;
        let record = SIZES[section] as i32;
        let size = self.map[2 * section + 1] as i32;
        for offset in [-1, len - 1, len, i32::MAX] {
            self.add(format!("offset {offset} of {section}"), at, &offset.to_le_bytes());
        }
        let mut sizes = vec![-1, size + 1, size + record, 0, record * (3_000_000 / record)];
        if let Some(limit) = paper::limit(section) {
            sizes.push((limit as i32 + 1) * record);
        }
        for size in sizes {
            self.add(format!("size {size} of {section}"), at + 4, &size.to_le_bytes());
        }
    }

    /// The entity text and the texture count.
    fn texts(&mut self) {
        let (text, end) = (self.map[0] as usize, (self.map[0] + self.map[1]) as usize);
        self.add("text not UTF-8".to_string(), text, &[0xff]);
        self.add("text without its end".to_string(), end - 1, b"x");
        let textures = self.map[2 * TEXTURES] as usize;
        for count in [-1, 2_097_153] {
            self.add(format!("texture count {count}"), textures, &i32::to_le_bytes(count));
        }
    }

    /// A field of the first and of the last record of a section.
    fn field(&mut self, section: usize, field: usize, bytes: &[u8]) {
        for record in [0, self.count(section) as usize - 1] {
            let at = self.map[2 * section] as usize + record * SIZES[section] + field;
            self.add(format!("section {section}, record {record}, byte {field}"), at, bytes);
        }
    }

    fn long(&mut self, section: usize, field: usize, value: i32) {
        self.field(section, field, &value.to_le_bytes());
    }

    fn short(&mut self, section: usize, field: usize, value: i32) {
        self.field(section, field, &(value as i16).to_le_bytes());
    }

    fn fields(&mut self) {
        self.long(RENDER_NODES, 0, -1);
        self.short(RENDER_NODES, 4, -32768);
        self.short(RENDER_NODES, 20, -1);
        let textures = self.map[30] as i32;
        for texture in [-1, textures, textures + 1] {
            self.long(TEXINFOS, 32, texture);
        }
        self.long(TEXINFOS, 36, 2);
        self.faces();
        self.long(CLIP_NODES, 0, -1);
        self.short(CLIP_NODES, 4, -7);
        self.short(CLIP_NODES, 6, -32768);
        for contents in [0, -7, i32::MIN] {
            self.long(LEAVES, 0, contents);
        }
        self.long(LEAVES, 4, -2);
        for field in [36, 40, 44, 52, 56, 60] {
            self.long(MODELS, field, -1);
        }
    }

    fn faces(&mut self) {
        let (planes, infos) = (self.count(PLANES), self.count(TEXINFOS));
        for plane in [-1, planes + 1] {
            self.short(FACES, 0, plane);
        }
        self.short(FACES, 2, 2);
        for edge in [-1, self.count(EDGELIST) - 2] {
            self.long(FACES, 4, edge);
        }
        self.short(FACES, 8, 2);
        for info in [-1, infos, infos + 1] {
            self.short(FACES, 10, info);
        }
        self.long(FACES, 16, -2);
        self.long(EDGELIST, 0, self.count(EDGES));
        self.field(EDGES, 0, &[0xff; 4]);
        self.field(VERTICES, 0, &20_000.0f32.to_le_bytes());
    }
}

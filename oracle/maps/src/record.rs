//! The tables of a map file, record by record, and the file that holds them.

/// A record that knows its bytes.
pub trait Record {
    fn put(&self, out: &mut Vec<u8>);
}

macro_rules! numbers {
    ($($type:ty)*) => {
        $(impl Record for $type {
            fn put(&self, out: &mut Vec<u8>) {
                out.extend_from_slice(&self.to_le_bytes());
            }
        })*
    };
}

numbers!(u8 u16 i16 i32 u32 f32);

impl<T: Record, const N: usize> Record for [T; N] {
    fn put(&self, out: &mut Vec<u8>) {
        for part in self {
            part.put(out);
        }
    }
}

macro_rules! record {
    ($(#[$doc:meta])* $name:ident { $($field:ident: $type:ty),* $(,)? }) => {
        $(#[$doc])*
        #[derive(Copy, Clone, Debug)]
        pub struct $name {
            $(pub $field: $type,)*
        }

        impl Record for $name {
            fn put(&self, out: &mut Vec<u8>) {
                $(self.$field.put(out);)*
            }
        }
    };
}

record! {
    Plane { normal: [f32; 3], dist: f32, kind: i32 }
}

record! {
    /// A child below zero is leaf -1 - child.
    RenderNode { plane: i32, children: [i16; 2], min: [i16; 3], max: [i16; 3], face: i16, faces: u16 }
}

record! {
    TexInfo { s: [f32; 4], t: [f32; 4], texture: i32, flags: i32 }
}

record! {
    Face {
        plane: i16, side: i16, edge: i32, edges: i16, texinfo: i16, styles: [u8; 4], lightmap: i32,
    }
}

record! {
    /// A child below zero is a contents code, negated.
    ClipNode { plane: i32, children: [i16; 2] }
}

record! {
    Leaf {
        contents: i32, visibility: i32, min: [i16; 3], max: [i16; 3], facelist: u16, faces: u16,
        sounds: [u8; 4],
    }
}

record! {
    Model {
        min: [f32; 3], max: [f32; 3], origin: [f32; 3], roots: [i32; 4], leaves: i32, face: i32,
        faces: i32,
    }
}

/// The sections of a file in its order.
pub const ENTITIES: usize = 0;
pub const PLANES: usize = 1;
pub const TEXTURES: usize = 2;
pub const VERTICES: usize = 3;
pub const VISIBILITY: usize = 4;
pub const RENDER_NODES: usize = 5;
pub const TEXINFOS: usize = 6;
pub const FACES: usize = 7;
pub const LIGHTMAPS: usize = 8;
pub const CLIP_NODES: usize = 9;
pub const LEAVES: usize = 10;
pub const FACELIST: usize = 11;
pub const EDGES: usize = 12;
pub const EDGELIST: usize = 13;
pub const MODELS: usize = 14;
pub const SECTIONS: usize = 15;

/// The bytes of one record of each section.
pub const SIZES: [usize; SECTIONS] = [1, 20, 1, 12, 1, 24, 40, 20, 1, 8, 28, 2, 4, 4, 64];

/// The bytes before the first section.
pub const HEADER: usize = 4 + 8 * SECTIONS;

#[derive(Clone, Debug, Default)]
pub struct Tables {
    /// The text with its zero byte.
    pub entities: Vec<u8>,
    pub planes: Vec<Plane>,
    /// The section's bytes, its count first.
    pub textures: Vec<u8>,
    pub vertices: Vec<[f32; 3]>,
    pub visibility: Vec<u8>,
    pub render_nodes: Vec<RenderNode>,
    pub texinfos: Vec<TexInfo>,
    pub faces: Vec<Face>,
    pub lightmaps: Vec<u8>,
    pub clip_nodes: Vec<ClipNode>,
    pub leaves: Vec<Leaf>,
    pub facelist: Vec<u16>,
    pub edges: Vec<[u16; 2]>,
    pub edgelist: Vec<i32>,
    pub models: Vec<Model>,
}

/// Where the sections stand.
#[derive(Clone, Debug)]
pub struct Layout {
    /// The order in which the sections are written.
    pub order: [usize; SECTIONS],
    /// Bytes of no section before each, in that order.
    pub gaps: [usize; SECTIONS],
    /// The offset named for a section that is empty; the texture section is never so.
    pub empty: [Option<u32>; SECTIONS],
}

impl Layout {
    /// One after the other, in the file's order.
    pub fn plain() -> Layout {
        let mut order = [0; SECTIONS];
        for (at, section) in order.iter_mut().enumerate() {
            *section = at;
        }
        Layout { order, gaps: [0; SECTIONS], empty: [None; SECTIONS] }
    }
}

fn bytes<T: Record>(records: &[T]) -> Vec<u8> {
    let mut out = Vec::new();
    for record in records {
        record.put(&mut out);
    }
    out
}

impl Tables {
    /// The bytes of each section.
    pub fn sections(&self) -> [Vec<u8>; SECTIONS] {
        [
            self.entities.clone(),
            bytes(&self.planes),
            self.textures.clone(),
            bytes(&self.vertices),
            self.visibility.clone(),
            bytes(&self.render_nodes),
            bytes(&self.texinfos),
            bytes(&self.faces),
            self.lightmaps.clone(),
            bytes(&self.clip_nodes),
            bytes(&self.leaves),
            bytes(&self.facelist),
            bytes(&self.edges),
            bytes(&self.edgelist),
            bytes(&self.models),
        ]
    }

    /// The file with these tables.
    pub fn file(&self, layout: &Layout) -> Vec<u8> {
        let sections = self.sections();
        let mut out = vec![0; HEADER];
        let mut places = [(0u32, 0u32); SECTIONS];
        for (at, &section) in layout.order.iter().enumerate() {
            out.resize(out.len() + layout.gaps[at], 0xa5);
            places[section] = (out.len() as u32, sections[section].len() as u32);
            out.extend_from_slice(&sections[section]);
        }
        for (place, empty) in places.iter_mut().zip(layout.empty) {
            if let (0, Some(offset)) = (place.1, empty) {
                place.0 = offset;
            }
        }
        // an empty entity section is accepted only at or past the file's end
        if places[ENTITIES].1 == 0 {
            places[ENTITIES].0 = places[ENTITIES].0.max(out.len() as u32);
        }
        out[..4].copy_from_slice(&29i32.to_le_bytes());
        for (section, (offset, size)) in places.iter().enumerate() {
            let at = 4 + 8 * section;
            out[at..at + 4].copy_from_slice(&offset.to_le_bytes());
            out[at + 4..at + 8].copy_from_slice(&size.to_le_bytes());
        }
        out
    }

    /// The smallest map: one zero entity byte, no texture, one model of zeros; 193 bytes.
    pub fn smallest() -> Tables {
        Tables {
            entities: vec![0],
            textures: vec![0; 4],
            models: vec![Model {
                min: [0.0; 3],
                max: [0.0; 3],
                origin: [0.0; 3],
                roots: [0; 4],
                leaves: 0,
                face: 0,
                faces: 0,
            }],
            ..Tables::default()
        }
    }
}

//! Files for the tests.

#![allow(dead_code)]

/// The bytes of the sections, by their name.
#[derive(Clone, Default)]
pub struct Sections {
    pub entities: Vec<u8>,
    pub planes: Vec<u8>,
    pub textures: Vec<u8>,
    pub vertices: Vec<u8>,
    pub visibility: Vec<u8>,
    pub render_nodes: Vec<u8>,
    pub texture_infos: Vec<u8>,
    pub faces: Vec<u8>,
    pub lightmaps: Vec<u8>,
    pub clip_nodes: Vec<u8>,
    pub leaves: Vec<u8>,
    pub face_list: Vec<u8>,
    pub edges: Vec<u8>,
    pub edge_list: Vec<u8>,
    pub models: Vec<u8>,
}

impl Sections {
    /// One zero entity byte, no texture, one model of zeros.
    pub fn smallest() -> Sections {
        Sections {
            entities: vec![0],
            textures: vec![0; 4],
            models: vec![0; 64],
            ..Sections::default()
        }
    }
}

/// The file of these sections, without gaps.
pub fn file(parts: &Sections) -> Vec<u8> {
    let sections = [
        &parts.entities,
        &parts.planes,
        &parts.textures,
        &parts.vertices,
        &parts.visibility,
        &parts.render_nodes,
        &parts.texture_infos,
        &parts.faces,
        &parts.lightmaps,
        &parts.clip_nodes,
        &parts.leaves,
        &parts.face_list,
        &parts.edges,
        &parts.edge_list,
        &parts.models,
    ];
    let mut head = bytes(&[29]);
    let mut body = Vec::new();
    for section in sections {
        head.extend(bytes(&[124 + body.len() as i32, section.len() as i32]));
        body.extend_from_slice(section);
    }
    head.extend(body);
    head
}

/// Numbers as a file holds them.
pub fn bytes(numbers: &[i32]) -> Vec<u8> {
    numbers.iter().flat_map(|n| n.to_le_bytes()).collect()
}

fn sample(name: &str) -> Vec<u8> {
    let path = format!("{}/../../maps/{name}", env!("CARGO_MANIFEST_DIR"));
    std::fs::read(&path).unwrap_or_else(|error| panic!("{path}: {error}"))
}

/// The 193-byte map of document 01.
pub fn smallest() -> Vec<u8> {
    sample("smallest.bsp")
}

/// The two rooms.
pub fn rooms() -> Vec<u8> {
    sample("rooms.bsp")
}

/// The yard under the open sky.
pub fn yard() -> Vec<u8> {
    sample("yard.bsp")
}

/// A map with a chain of so many clip nodes, at z = 0, -1, -2 and so on: a segment that comes from
/// below crosses the first node's plane last, and every part of it before a plane crosses the next.
pub fn chain(length: i32) -> Vec<u8> {
    let mut parts = Sections::smallest();
    for at in 0..length {
        let one = 1.0f32.to_bits() as i32;
        parts.planes.extend(bytes(&[0, 0, one, (-at as f32).to_bits() as i32, 2]));
        let back = if at + 1 < length { (at + 1) as i16 } else { -1 };
        parts.clip_nodes.extend(bytes(&[at]));
        parts.clip_nodes.extend([(-2i16).to_le_bytes(), back.to_le_bytes()].concat());
    }
    file(&parts)
}

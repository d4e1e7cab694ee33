//! Made-up maps: document 02, note 14 as a program.

use super::*;

/// "each next number is the last one times 1664525 plus 1013904223, modulo 2^32, the seed being the
/// last one at the start": one number for each node.
pub fn numbers(seed: u32, count: u64) -> Vec<u32> {
    let mut last = seed as u64;
    let mut numbers = Vec::new();
    for _ in 0..count {
        last = (last * 1_664_525 + 1_013_904_223) % (1 << 32);
        numbers.push(last as u32);
    }
    numbers
}

/// "its axis (the type, remainder by 3)".
pub fn axis(number: u32) -> u32 {
    number % 3
}

/// "its distance (the number divided by 256, remainder by 256, less 128)".
pub fn distance(number: u32) -> f32 {
    ((number / 256 % 256) as i32 - 128) as f32
}

/// "Solid if the number is 2^31 or more and else Empty": the leaf in front of a node.
pub fn is_solid(number: u32) -> bool {
    number >= 1 << 31
}

/// A node of the chain: its plane, the front child and then the back one, by what stands for the next
/// node and for a Solid or an Empty leaf.
fn node(bytes: &mut Vec<u8>, at: u32, number: u32, is_last: bool, (solid, empty): (i16, i16)) {
    let front = if is_solid(number) { solid } else { empty };
    let back = if is_last { empty } else { at as i16 + 1 };
    bytes.extend(at.to_le_bytes());
    bytes.extend(front.to_le_bytes());
    bytes.extend(back.to_le_bytes());
}

/// The sections in use, by their numbers.
fn sections(seed: u32, count: u64) -> [Vec<u8>; SECTIONS] {
    let mut sections: [Vec<u8>; SECTIONS] = Default::default();
    // "one zero entity byte, a zero texture count"
    sections[ENTITIES] = vec![0];
    sections[TEXTURES] = vec![0; 4];
    for (at, number) in numbers(seed, count).into_iter().enumerate() {
        let is_last = at as u64 + 1 == count;
        sections[PLANES].extend([0; 12]);
        sections[PLANES].extend(distance(number).to_le_bytes());
        sections[PLANES].extend(axis(number).to_le_bytes());
        // a leaf l is stored as -1 - l: leaf 0 is Solid, leaf 1 Empty
        node(&mut sections[RENDER_NODES], at as u32, number, is_last, (-1, -2));
        sections[RENDER_NODES].extend([0; 16]);
        // contents codes are stored negated
        node(&mut sections[CLIP_NODES], at as u32, number, is_last, (-2, -1));
    }
    // "leaf 0 Solid and leaf 1 Empty, both with visibility -1"
    for code in [-2i32, -1] {
        sections[LEAVES].extend(code.to_le_bytes());
        sections[LEAVES].extend((-1i32).to_le_bytes());
        sections[LEAVES].extend([0; 20]);
    }
    // "one model with roots 0 and leaf count 1": its leaf count lies behind nine floats and four roots
    sections[MODELS] = vec![0; 64];
    sections[MODELS][52] = 1;
    sections
}

/// The file: 29 for a node count outside 1 to 500. "Sections follow the header in their order without
/// gaps", "unused sections empty at offset 0".
pub fn made_up(seed: u32, count: u64) -> Answer<Vec<u8>> {
    if !(1..=500).contains(&count) {
        return Err(29);
    }
    let sections = sections(seed, count);
    let mut file = 29i32.to_le_bytes().to_vec();
    let mut end = 4 + 8 * SECTIONS as u32;
    for section in &sections {
        let size = section.len() as u32;
        let offset = if size == 0 { 0 } else { end };
        file.extend(offset.to_le_bytes());
        file.extend(size.to_le_bytes());
        end += size;
    }
    file.extend(sections.concat());
    Ok(file)
}

//! Loading: which refusal, or the words of the map record.

use super::fields::Reader;
use super::records::{self, Child, Counts};
use super::*;

/// The sections whose limits are tested, in that order; models last.
pub const LIMITED: [usize; 9] =
    [PLANES, VERTICES, VISIBILITY, RENDER_NODES, CLIP_NODES, LEAVES, EDGES, EDGELIST, MODELS];

pub fn load(file: &[u8]) -> Answer<[u32; MAP_WORDS]> {
    let mut words = header(file)?;
    let mut map = Map::new(file, &words).expect("enough words");
    limits(&map)?;
    entities(&map)?;
    section(&map, PLANES, |r| records::plane(r).map(drop))?;
    map.texture_count = texture_count(&map)?;
    words[MAP_WORDS - 1] = map.texture_count as u32;
    map.textures()?;
    let counts = map.counts();
    section(&map, VERTICES, |r| r.three_f32().map(drop))?;
    bytes(&map, VISIBILITY)?;
    section(&map, RENDER_NODES, |r| records::render_node(r).map(drop))?;
    section(&map, TEXINFOS, |r| texinfo(r, counts))?;
    section(&map, FACES, |r| records::face(r, counts).map(drop))?;
    bytes(&map, LIGHTMAPS)?;
    section(&map, CLIP_NODES, |r| records::clip_node(r).map(drop))?;
    section(&map, LEAVES, |r| records::leaf(r).map(drop))?;
    section(&map, FACELIST, |r| r.u16().map(drop))?;
    section(&map, EDGES, |r| r.u16().and_then(|_| r.u16()).map(drop))?;
    section(&map, EDGELIST, |r| records::edge_entry(r).map(drop))?;
    extents(&map)?;
    leaves_named(&map)?;
    section(&map, MODELS, |r| records::model(r).map(drop))?;
    Ok(words)
}

/// The version, then each section's offset, size and divisibility. The texture count is not known
/// yet.
fn header(file: &[u8]) -> Answer<[u32; MAP_WORDS]> {
    let mut r = Reader::new(file, 0);
    version(&mut r)?;
    let mut words = [0; MAP_WORDS];
    for section in 0..SECTIONS {
        (words[2 * section], words[2 * section + 1]) = entry(&mut r, section)?;
    }
    Ok(words)
}

pub fn version(r: &mut Reader) -> Answer<()> {
    match r.i32()? {
        29 => Ok(()),
        _ => Err(2),
    }
}

/// Offset and size of a section.
pub fn entry(r: &mut Reader, section: usize) -> Answer<(u32, u32)> {
    let offset = r.i32()?;
    if offset < 0 {
        return Err(3);
    }
    let size = r.i32()?;
    if size < 0 {
        return Err(4);
    }
    if !(size as u64).is_multiple_of(record_size(section)) {
        return Err(5);
    }
    Ok((offset as u32, size as u32))
}

fn limits(map: &Map) -> Answer<()> {
    LIMITED.into_iter().try_for_each(|section| limit(map, section))
}

/// At most so many records; at least one model.
pub fn limit(map: &Map, section: usize) -> Answer<()> {
    if !map.within_limit(section) || (section == MODELS && map.count(MODELS) == 0) {
        return Err(6);
    }
    Ok(())
}

/// Through the first zero byte or to the file's end: length, UTF-8, end position.
pub fn entities(map: &Map) -> Answer<()> {
    let from = map.offset(ENTITIES).min(map.file.len() as u64) as usize;
    let rest = &map.file[from..];
    let text = match rest.iter().position(|byte| *byte == 0) {
        None => rest,
        Some(zero) => &rest[..zero + 1],
    };
    if text.len() > 65_536 {
        return Err(8);
    }
    if std::str::from_utf8(text).is_err() {
        return Err(9);
    }
    if text.len() as u64 != map.size(ENTITIES) {
        return Err(7);
    }
    Ok(())
}

/// What the texture section says, where loading comes to it.
pub fn textures(file: &[u8]) -> Option<Answer<()>> {
    let words = header(file).ok()?;
    let mut map = Map::new(file, &words).expect("enough words");
    limits(&map).ok()?;
    entities(&map).ok()?;
    section(&map, PLANES, |r| records::plane(r).map(drop)).ok()?;
    map.texture_count = texture_count(&map).ok()?;
    Some(map.textures())
}

/// The texture count.
pub fn texture_count(map: &Map) -> Answer<u64> {
    let count = Reader::new(map.file, map.offset(TEXTURES)).i32()?;
    if !(0..=2_097_152).contains(&count) {
        return Err(10);
    }
    Ok(count as u64)
}

/// Record after record, then the end position.
fn section(
    map: &Map,
    section: usize,
    mut record: impl FnMut(&mut Reader) -> Answer<()>,
) -> Answer<()> {
    let mut r = Reader::new(map.file, map.offset(section));
    for _ in 0..map.count(section) {
        record(&mut r)?;
    }
    if r.at != map.offset(section) + map.size(section) {
        return Err(7);
    }
    Ok(())
}

/// Bytes as far as the file has them, then the end position.
pub fn bytes(map: &Map, section: usize) -> Answer<()> {
    if map.section_readable(section) {
        Ok(())
    } else {
        Err(7)
    }
}

/// The flag (10) comes before a texture number equal to its count (11).
pub fn texinfo(r: &mut Reader, counts: Counts) -> Answer<()> {
    if records::texinfo(r, counts)?.texture == counts.textures {
        return Err(11);
    }
    Ok(())
}

/// Face after face.
fn extents(map: &Map) -> Answer<()> {
    (0..map.count(FACES)).try_for_each(|index| face_extents(map, index))
}

/// Indices (11), then an extent above 2,000 (12).
pub fn face_extents(map: &Map, index: u64) -> Answer<()> {
    let face = map.face(index)?;
    let (found, texinfo) = map.extents_and_texinfo(&face)?.ok_or(11u32)?;
    if !texinfo.special && found.extents.iter().any(|extent| *extent > 2000) {
        return Err(12);
    }
    Ok(())
}

/// Every leaf named by a render node (11).
fn leaves_named(map: &Map) -> Answer<()> {
    (0..map.count(RENDER_NODES)).try_for_each(|index| leaf_children(map, index))
}

pub fn leaf_children(map: &Map, index: u64) -> Answer<()> {
    for child in map.render_node(index)?.children {
        if let Child::Leaf(leaf) = child {
            if leaf >= map.count(LEAVES) {
                return Err(11);
            }
        }
    }
    Ok(())
}

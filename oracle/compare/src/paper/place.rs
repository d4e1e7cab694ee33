//! Where loading refuses a file (`include/bsp29.h`, `bsp_load_place`): loading once more, each reader
//! saying where it stands. The readers are those of `load`, `records` and `textures`; that the number
//! is the one of `load` is compared and not assumed.

use super::fields::Reader;
use super::*;

/// The words of a place: number, section, record, byte.
pub const PLACE_WORDS: usize = 4;

/// The header among the sections.
pub const HEADER: usize = SECTIONS;

/// A refusal's number and where it stands.
#[derive(Copy, Clone, Debug, PartialEq)]
pub struct Place {
    pub number: u32,
    pub section: usize,
    pub record: u64,
    pub byte: u64,
}

type Read<T> = Result<T, Place>;

/// The words of a file's place; zeros where it loads.
pub fn words(file: &[u8]) -> [u64; PLACE_WORDS] {
    match read(file) {
        Ok(()) => [0; PLACE_WORDS],
        Err(place) => [place.number as u64, place.section as u64, place.record, place.byte],
    }
}

/// A reader's answer, with the place at which it stood.
fn at<T>(answer: Answer<T>, section: usize, record: u64, byte: u64) -> Read<T> {
    answer.map_err(|number| Place { number, section, record, byte })
}

fn read(file: &[u8]) -> Read<()> {
    let words = header(file)?;
    let mut map = Map::new(file, &words).expect("enough words");
    for section in load::LIMITED {
        at(load::limit(&map, section), HEADER, section as u64, 4 + 8 * section as u64)?;
    }
    whole(&map, ENTITIES, load::entities)?;
    rows(&map, PLANES, |r| records::plane(r).map(drop))?;
    map.texture_count = textures(&map)?;
    let counts = map.counts();
    rows(&map, VERTICES, |r| r.three_f32().map(drop))?;
    whole(&map, VISIBILITY, |map| load::bytes(map, VISIBILITY))?;
    rows(&map, RENDER_NODES, |r| records::render_node(r).map(drop))?;
    rows(&map, TEXINFOS, |r| load::texinfo(r, counts))?;
    rows(&map, FACES, |r| records::face(r, counts).map(drop))?;
    whole(&map, LIGHTMAPS, |map| load::bytes(map, LIGHTMAPS))?;
    rows(&map, CLIP_NODES, |r| records::clip_node(r).map(drop))?;
    rows(&map, LEAVES, |r| records::leaf(r).map(drop))?;
    rows(&map, FACELIST, |r| r.u16().map(drop))?;
    rows(&map, EDGES, |r| r.u16().and_then(|_| r.u16()).map(drop))?;
    rows(&map, EDGELIST, |r| records::edge_entry(r).map(drop))?;
    again(&map, FACES, load::face_extents)?;
    again(&map, RENDER_NODES, load::leaf_children)?;
    rows(&map, MODELS, |r| records::model(r).map(drop))
}

/// The version is the header's record 0 at byte 0; an entry of the directory has its section's number.
fn header(file: &[u8]) -> Read<[u32; MAP_WORDS]> {
    let mut r = Reader::new(file, 0);
    at(load::version(&mut r), HEADER, 0, 0)?;
    let mut words = [0; MAP_WORDS];
    for section in 0..SECTIONS {
        let byte = r.at;
        let (offset, size) = at(load::entry(&mut r, section), HEADER, section as u64, byte)?;
        words[2 * section] = offset;
        words[2 * section + 1] = size;
    }
    Ok(words)
}

/// What has no records is named by its start.
fn whole(map: &Map, section: usize, read: impl Fn(&Map) -> Answer<()>) -> Read<()> {
    at(read(map), section, 0, map.offset(section))
}

/// Record after record, each named by its index and its first byte.
fn rows(map: &Map, section: usize, mut record: impl FnMut(&mut Reader) -> Answer<()>) -> Read<()> {
    let mut r = Reader::new(map.file, map.offset(section));
    for index in 0..map.count(section) {
        let byte = r.at;
        at(record(&mut r), section, index, byte)?;
    }
    let end = map.offset(section) + map.size(section);
    at(if r.at == end { Ok(()) } else { Err(7) }, section, map.count(section), r.at)
}

/// The records of a section once more, for what they name.
fn again(map: &Map, section: usize, named: impl Fn(&Map, u64) -> Answer<()>) -> Read<()> {
    for index in 0..map.count(section) {
        let byte = map.offset(section) + record_size(section) * index;
        at(named(map, index), section, index, byte)?;
    }
    Ok(())
}

/// The count by the section's start, an offset by its place in the list, a texture by its header's start,
/// or by its offset where that leads to the file's end or past it; what is said of the whole section by
/// its end.
fn textures(map: &Map) -> Read<u64> {
    let base = map.offset(TEXTURES);
    let count = at(load::texture_count(map), TEXTURES, 0, base)?;
    let listed = |index: u64| base + 4 + 4 * index;
    let mut offsets = Vec::new();
    for index in 0..count {
        let offset = Reader::new(map.file, listed(index)).or_none();
        offsets.push(at(offset, TEXTURES, index, listed(index))?);
    }
    for (index, offset) in offsets.into_iter().enumerate() {
        let Some(offset) = offset else { continue };
        let start = base + offset;
        let inside = start < map.file.len() as u64;
        let byte = if inside { start } else { listed(index as u64) };
        at(textures::header(map.file, start).map(drop), TEXTURES, index as u64, byte)?;
    }
    let counted = Map { texture_count: count, ..*map };
    at(counted.textures(), TEXTURES, count, base + map.size(TEXTURES))?;
    Ok(count)
}

//! The corners and the light of faces, the leaves and faces of models, the sections that are bytes.

mod common;

use bsp29::{Lightmap, Map, Refusal, Section};
use common::{bytes, file, rooms, Sections};

/// A face of four corners, 16 units by 32, with this first light byte and these styles.
fn with_light(lightmap: i32, styles: [u8; 4], lightmaps: Vec<u8>) -> Vec<u8> {
    let corner = |x: f32, y: f32| bytes(&[x.to_bits() as i32, y.to_bits() as i32, 0]);
    let mut parts = Sections::smallest();
    parts.textures = bytes(&[1, -1]);
    parts.vertices =
        [corner(0.0, 0.0), corner(16.0, 0.0), corner(16.0, 32.0), corner(0.0, 32.0)].concat();
    // edge 0 is not used; the last edge is stored the other way round
    let edge = |a: u16, b: u16| [a.to_le_bytes(), b.to_le_bytes()].concat();
    parts.edges = [edge(0, 0), edge(0, 1), edge(1, 2), edge(2, 3), edge(0, 3)].concat();
    parts.edge_list = bytes(&[1, 2, 3, -4]);
    let one = 1.0f32.to_bits() as i32;
    parts.texture_infos = bytes(&[one, 0, 0, 0, 0, one, 0, 0, 0, 0]);
    parts.faces = [vec![0; 8], vec![4, 0, 0, 0], styles.to_vec(), bytes(&[lightmap])].concat();
    parts.lightmaps = lightmaps;
    file(&parts)
}

#[test]
fn corners_in_order() {
    let file = with_light(-1, [255; 4], vec![]);
    let map = Map::load(&file).unwrap();
    let corners: Vec<[f32; 3]> = map.face_vertices(0).unwrap().map(Result::unwrap).collect();
    assert_eq!(corners, [[0.0; 3], [16.0, 0.0, 0.0], [16.0, 32.0, 0.0], [0.0, 32.0, 0.0]]);
    assert_eq!(map.face_vertices(0).unwrap().len(), 4);
    let last = map.face_vertices(0).unwrap().next_back();
    assert_eq!(last, Some(Ok([0.0, 32.0, 0.0])));
    assert_eq!(map.face_vertices(1).err(), Some(Refusal::NoSuchRecord));
    assert!(map.face_lightmaps(0).unwrap().is_empty());
}

#[test]
fn light_in_every_style() {
    let all: Vec<u8> = (0..20).collect();
    let file = with_light(2, [0, 7, 9, 255], all.clone());
    let map = Map::load(&file).unwrap();
    assert_eq!(map.lightmaps().unwrap(), all);
    // 16 by 32 units: 2 by 3 bytes
    let light = |at: usize| Lightmap { width: 2, height: 3, data: &all[at..at + 6] };
    assert_eq!(map.face_lightmaps(0).unwrap(), [light(2), light(8), light(14)]);
    for (lightmap, styles, answer) in [
        (3, [0, 7, 9, 255], Err(Refusal::Unreadable)),
        (3, [0, 7, 255, 9], Ok(2)),
        (i32::MAX, [0, 255, 0, 0], Err(Refusal::Unreadable)),
        (i32::MAX, [255, 0, 0, 0], Ok(0)),
    ] {
        let file = with_light(lightmap, styles, all.clone());
        let map = Map::load(&file).unwrap();
        assert_eq!(map.face_lightmaps(0).map(|lights| lights.len()), answer);
    }
}

#[test]
fn sections_that_are_bytes() {
    let file = rooms();
    let map = Map::load(&file).unwrap();
    let words = *map.words();
    let part = |section: Section| {
        let at = 2 * section.number() as usize;
        &file[words[at] as usize..(words[at] + words[at + 1]) as usize]
    };
    assert_eq!(map.visibility().unwrap(), part(Section::Visibility));
    assert_eq!(map.lightmaps().unwrap(), part(Section::Lightmaps));

    // by hand: empty anywhere, outside, and above the limit of the visibility
    let by_hand = |section: Section, offset: u32, size: u32| {
        let mut words = words;
        words[2 * section.number() as usize] = offset;
        words[2 * section.number() as usize + 1] = size;
        words
    };
    let asked = |file: &[u8], section, offset, size| {
        let map = Map::from_words(file, by_hand(section, offset, size));
        let bytes = if section == Section::Lightmaps { map.lightmaps() } else { map.visibility() };
        bytes.map(<[u8]>::len)
    };
    let long = vec![0; 1_048_600];
    for section in [Section::Lightmaps, Section::Visibility] {
        assert_eq!(asked(&file, section, u32::MAX, 0), Ok(0));
        assert_eq!(asked(&file, section, u32::MAX, u32::MAX), Err(Refusal::Unreadable));
        assert_eq!(asked(&file, section, 1, file.len() as u32), Err(Refusal::Unreadable));
        assert_eq!(asked(&file, section, 1, file.len() as u32 - 1), Ok(file.len() - 1));
        assert_eq!(asked(&long, section, 3, 1_048_576), Ok(1_048_576));
    }
    assert_eq!(asked(&long, Section::Lightmaps, 3, 1_048_577), Ok(1_048_577));
    assert_eq!(asked(&long, Section::Visibility, 3, 1_048_577), Err(Refusal::Unreadable));
}

#[test]
fn models() {
    let file = rooms();
    let map = Map::load(&file).unwrap();
    let leaves = |model| map.model_leaves(model).unwrap().map(Result::unwrap).collect::<Vec<_>>();
    let all: Vec<_> = map.leaves().values().collect();
    assert_eq!(leaves(0), all[..5]);
    assert_eq!(leaves(1), all[4..6]);
    assert_eq!(map.model_leaves(2).err(), Some(Refusal::NoSuchRecord));
    let faces: Vec<_> = map.model_faces(0).unwrap().map(Result::unwrap).collect();
    assert_eq!(faces, map.faces().values().collect::<Vec<_>>());
    assert_eq!(map.model_faces(1).unwrap().len(), 0);
    let list: Vec<_> = map.model_face_list(0).unwrap().map(|entry| entry.unwrap().face).collect();
    assert_eq!(list, [0, 1]);

    // the smallest map's model names leaf 0, of which there is none
    let file = common::smallest();
    let map = Map::load(&file).unwrap();
    assert_eq!(map.model_leaves(0).err(), Some(Refusal::NoSuchRecord));
    assert_eq!(map.model_faces(0).unwrap().len(), 0);
}

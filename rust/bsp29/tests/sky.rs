//! Sky (document 02, note 1): a kind of its own, not solid, in leaves and in clip nodes.

mod common;

use bsp29::{ClipChild, Contents, Map, Refusal, TraceEnd};
use common::{bytes, file, yard, Sections};

/// The smallest map with one leaf of these contents.
fn with_leaf(contents: i32) -> Vec<u8> {
    let mut leaves = bytes(&[contents, -1]);
    leaves.resize(28, 0);
    file(&Sections { leaves, ..Sections::smallest() })
}

/// The smallest map with one clip node whose back child is this.
fn with_clip_node(back: i16) -> Vec<u8> {
    let children = [(-1i16).to_le_bytes(), back.to_le_bytes()].concat();
    file(&Sections { clip_nodes: [bytes(&[0]), children].concat(), ..Sections::smallest() })
}

#[test]
fn codes_1_to_6_and_9_to_14() {
    for code in 1..=20 {
        let known = (1..=6).contains(&code) || (9..=14).contains(&code);
        let leaf = with_leaf(-code);
        let node = with_clip_node(-code as i16);
        if !known {
            assert_eq!(Map::load(&leaf).unwrap_err(), Refusal::InvalidField);
            assert_eq!(Map::load(&node).unwrap_err(), Refusal::InvalidField);
            continue;
        }
        let contents = Map::load(&leaf).unwrap().leaves().get(0).unwrap().contents;
        assert_eq!(contents.code(), code as u32);
        assert_eq!(contents == Contents::Sky, code == 6);
        let back = Map::load(&node).unwrap().clip_nodes().get(0).unwrap().back;
        assert_eq!(back, ClipChild::Contents(contents));
    }
}

#[test]
fn a_code_that_is_none_is_unreadable() {
    let mut leaf = with_leaf(-6);
    let at = leaf.len() - 28 - 64;
    let words = *Map::load(&leaf).unwrap().words();
    assert_eq!(leaf[at], (-6i32) as u8);
    leaf[at] -= 1;
    let map = Map::from_words(&leaf, words);
    assert_eq!(map.leaves().get(0), Err(Refusal::Unreadable));
}

#[test]
fn the_yard() {
    let file = yard();
    let map = Map::load(&file).unwrap();
    for index in 0..3 {
        let hull = map.hull(0, index).unwrap();
        assert_eq!(map.contents(&hull, [0.0, 0.0, 20.0]).unwrap().0, Contents::Empty);
        assert_eq!(map.contents(&hull, [0.0, 0.0, 100.0]).unwrap().0, Contents::Sky);
        assert_eq!(map.contents(&hull, [0.0, 0.0, 300.0]).unwrap().0, Contents::Solid);

        // from below, as into water: the contents differ at the sky's plane
        let up = map.trace(&hull, [0.0, 0.0, 20.0], [0.0, 0.0, 100.0]).unwrap();
        assert_eq!((up.contents, up.end), (Contents::Empty, [0.0, 0.0, 64.0]));
        assert!(matches!(up.kind, TraceEnd::Boundary { .. }));

        // within the sky to its end, and no start in a solid
        let within = map.trace(&hull, [-50.0, 0.0, 100.0], [50.0, 20.0, 150.0]).unwrap();
        assert_eq!((within.contents, within.end), (Contents::Sky, [50.0, 20.0, 150.0]));
        assert_eq!((within.kind, within.start_solid), (TraceEnd::Terminal, false));

        // through it up to what is solid, which begins lower for a larger figure
        let out = map.trace(&hull, [0.0, 0.0, 100.0], [0.0, 0.0, 300.0]).unwrap();
        assert_eq!((out.contents, out.start_solid), (Contents::Sky, false));
        assert_eq!(out.end, [0.0, 0.0, [256.0, 224.0, 192.0][index]]);

        let set = map.contents_box(&hull, [0.0, 0.0, 20.0], [0.0, 0.0, 100.0]).unwrap();
        assert_eq!(set.bits(), 1 << 1 | 1 << 6);
        assert!(set.holds(Contents::Sky) && !set.holds(Contents::Solid));
    }
    let leaf = map.find_leaf([0.0, 0.0, 100.0]).unwrap().0;
    assert_eq!(map.leaves().get(leaf).unwrap().contents, Contents::Sky);
    assert_eq!(map.visible_leaves(leaf, 3).unwrap(), [1, 2]);
}

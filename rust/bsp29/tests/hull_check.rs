//! The size of a hull's tree, beside a count made here record by record; and nothing depends on it.

mod common;

use std::collections::BTreeSet;

use bsp29::*;
use common::{chain, rooms, smallest};

/// The children of a node that are nodes.
fn children(map: &Map, table: NodeTable, index: usize) -> Vec<usize> {
    if table == NodeTable::Render {
        let node = map.render_nodes().get(index).unwrap();
        let nodes = [node.front, node.back].into_iter().filter_map(|child| match child {
            RenderChild::Node(n) => Some(n),
            RenderChild::Leaf(_) => None,
        });
        return nodes.collect();
    }
    let node = map.clip_nodes().get(index).unwrap();
    let nodes = [node.front, node.back].into_iter().filter_map(|child| match child {
        ClipChild::Node(n) => Some(n),
        ClipChild::Contents(_) => None,
    });
    nodes.collect()
}

/// How many nodes the root's tree has, and how many levels.
fn size(map: &Map, hull: &Hull) -> (usize, usize) {
    let mut tree = BTreeSet::new();
    let mut level = BTreeSet::from([hull.root()]);
    let mut height = 0;
    while !level.is_empty() {
        height += 1;
        tree.extend(level.iter().copied());
        level = level.iter().flat_map(|&node| children(map, hull.table(), node)).collect();
    }
    (tree.len(), height)
}

/// The hull with this size of its tree.
fn sized(hull: &Hull, nodes: usize, height: usize) -> Hull {
    let mut words = *hull.words();
    words[9] = nodes as u64;
    words[10] = height as u64;
    Hull::from_words(words)
}

#[test]
fn sizes_of_the_rooms() {
    let file = rooms();
    let map = Map::load(&file).unwrap();
    for (model, index) in [(0, 0), (0, 1), (0, 2), (1, 0), (1, 1), (1, 2)] {
        let hull = map.hull(model, index).unwrap();
        assert_eq!((hull.nodes(), hull.height()), (0, 0));
        let (nodes, height) = size(&map, &hull);
        assert_eq!(map.hull_check(&hull), Ok(sized(&hull, nodes, height)));
        assert_eq!(map.tree_check(hull.table(), hull.root()), Ok(height));
    }
}

#[test]
fn every_root_of_the_rooms() {
    let file = rooms();
    let map = Map::load(&file).unwrap();
    let of_model = map.hull(0, 1).unwrap();
    for root in 0..map.clip_nodes().len() {
        let hull = of_model.with_root(root);
        let (nodes, height) = size(&map, &hull);
        assert_eq!(map.hull_check(&hull), Ok(sized(&hull, nodes, height)));
    }
}

#[test]
fn chains() {
    let file = chain(512);
    let map = Map::load(&file).unwrap();
    let hull = map.hull(0, 1).unwrap();
    let checked = map.hull_check(&hull).unwrap();
    assert_eq!((checked.nodes(), checked.height()), (512, 512));
    let file = chain(513);
    let map = Map::load(&file).unwrap();
    assert_eq!(map.hull_check(&hull), Err(Refusal::TooDeep));
    let checked = map.hull_check(&hull.with_root(1)).unwrap();
    assert_eq!((checked.nodes(), checked.height()), (512, 512));
}

#[test]
fn a_box_keeps_zeros() {
    let file = smallest();
    let map = Map::load(&file).unwrap();
    let hull = Hull::for_bounds([-1.0; 3], [1.0; 3]).unwrap();
    assert_eq!(map.hull_check(&hull), Ok(hull));
    assert_eq!(map.hull_check(&sized(&hull, 6, 6)), Ok(hull));
    assert_eq!(map.hull_check(&hull.with_root(6)), Err(Refusal::IndexOutsideTable));
}

#[test]
fn refusals() {
    let file = smallest();
    let map = Map::load(&file).unwrap();
    let hull = map.hull(0, 1).unwrap();
    assert_eq!(map.hull_check(&hull), Err(Refusal::IndexOutsideTable));
    let file = rooms();
    let mut words = *Map::load(&file).unwrap().words();
    // the size of the clip nodes
    words[19] = u32::MAX;
    let map = Map::from_words(&file, words);
    assert_eq!(map.hull_check(&hull.with_root(0)), Err(Refusal::ListTooShort));
}

#[test]
fn nothing_depends_on_the_size() {
    let file = rooms();
    let map = Map::load(&file).unwrap();
    let (a, b) = ([-64.0, 64.0, 0.0], [64.0, 64.0, 0.0]);
    for index in 0..3 {
        let hull = map.hull(0, index).unwrap();
        let others = [map.hull_check(&hull).unwrap(), sized(&hull, 1, usize::MAX)];
        for other in others {
            assert_eq!(map.contents(&other, a), map.contents(&hull, a));
            assert_eq!(map.contents_nodes(&other, a), map.contents_nodes(&hull, a));
            assert_eq!(map.trace(&other, a, b), map.trace(&hull, a, b));
            assert_eq!(map.trace_nodes(&other, a, b), map.trace_nodes(&hull, a, b));
            assert_eq!(map.hull_check(&other), map.hull_check(&hull));
        }
    }
}

//! The lists of nodes entered, beside walks made here record by record.

mod common;

use bsp29::*;
use common::{chain, rooms, smallest};

/// Whether a point is in front of a plane.
fn in_front(plane: &Plane, point: [f32; 3]) -> bool {
    match plane.kind {
        PlaneKind::X => point[0] >= plane.dist,
        PlaneKind::Y => point[1] >= plane.dist,
        PlaneKind::Z => point[2] >= plane.dist,
        PlaneKind::Normal => {
            let n = plane.normal;
            n[0] * point[0] + n[1] * point[1] + n[2] * point[2] - plane.dist >= 0.0
        }
    }
}

/// The plane and the children of a node, where they are nodes.
fn node(map: &Map, table: NodeTable, index: usize) -> (Plane, Option<usize>, Option<usize>) {
    let render = |child| match child {
        RenderChild::Node(n) => Some(n),
        RenderChild::Leaf(_) => None,
    };
    let clip = |child| match child {
        ClipChild::Node(n) => Some(n),
        ClipChild::Contents(_) => None,
    };
    let (plane, front, back) = if table == NodeTable::Render {
        let node = map.render_nodes().get(index).unwrap();
        (node.plane, render(node.front), render(node.back))
    } else {
        let node = map.clip_nodes().get(index).unwrap();
        (node.plane, clip(node.front), clip(node.back))
    };
    (map.planes().get(plane).unwrap(), front, back)
}

/// The nodes on a point's way down.
fn walk(map: &Map, hull: &Hull, point: [f32; 3]) -> Vec<u32> {
    let mut entered = Vec::new();
    let mut next = Some(hull.root());
    while let Some(index) = next {
        entered.push(index as u32);
        let (plane, front, back) = node(map, hull.table(), index);
        next = if in_front(&plane, point) { front } else { back };
    }
    entered
}

/// Points in the rooms, in their walls and outside.
fn points() -> impl Iterator<Item = [f32; 3]> {
    let along = [-200.0, -128.0, -60.0, -8.0, 0.0, 30.5, 100.0, f32::NAN];
    along.into_iter().flat_map(move |x| {
        along.into_iter().flat_map(move |y| [-70.0, -50.0, 0.0].map(|z| [x, y, z]))
    })
}

#[test]
fn point_walks() {
    let file = rooms();
    let map = Map::load(&file).unwrap();
    for (model, index) in [(0, 0), (0, 1), (0, 2), (1, 0), (1, 1), (1, 2)] {
        let hull = map.hull(model, index).unwrap();
        for point in points() {
            let expected = walk(&map, &hull, point);
            assert_eq!(map.contents_nodes(&hull, point).unwrap(), expected);
            assert_eq!(map.contents(&hull, point).unwrap().1, expected.len() as u64);
            if hull.table() == NodeTable::Render {
                assert_eq!(map.find_leaf_nodes(hull.root(), point).unwrap(), expected);
            }
        }
    }
}

#[test]
fn traces() {
    let file = rooms();
    let map = Map::load(&file).unwrap();
    for index in 0..3 {
        let hull = map.hull(0, index).unwrap();
        for (start, end) in points().zip(points().skip(77)) {
            let nodes = map.trace_nodes(&hull, start, end).unwrap();
            assert_eq!(nodes.len() as u64, map.trace(&hull, start, end).unwrap().visits);
            assert_eq!(nodes[0] as usize, hull.root());
            for (at, &entered) in nodes.iter().enumerate().skip(1) {
                let is_child = |&parent: &u32| {
                    let (_, front, back) = node(&map, hull.table(), parent as usize);
                    [front, back].contains(&Some(entered as usize))
                };
                assert!(nodes[..at].iter().any(is_child), "{nodes:?}");
                assert!(!nodes[..at].contains(&entered), "{nodes:?}");
            }
        }
    }
}

#[test]
fn a_box() {
    let file = smallest();
    let map = Map::load(&file).unwrap();
    let hull = Hull::for_bounds([-1.0; 3], [1.0; 3]).unwrap();
    assert_eq!(map.contents_nodes(&hull, [0.0; 3]).unwrap(), [0, 1, 2, 3, 4, 5]);
    assert_eq!(map.contents_nodes(&hull, [0.0, 3.0, 0.0]).unwrap(), [0, 1, 2]);
    let nodes = map.trace_nodes(&hull, [-3.0, 0.0, 0.0], [5.0, 0.0, 0.0]).unwrap();
    assert_eq!(nodes, [0, 1, 2, 3, 4, 5]);
}

#[test]
fn refusals() {
    let file = smallest();
    let map = Map::load(&file).unwrap();
    let hull = map.hull(0, 1).unwrap();
    let outside = Err(Refusal::IndexOutsideTable);
    assert_eq!(map.contents_nodes(&hull, [0.0; 3]), outside);
    assert_eq!(map.find_leaf_nodes(0, [0.0; 3]), outside);
    assert_eq!(map.trace_nodes(&hull, [0.0; 3], [1.0; 3]), outside);
}

#[test]
fn a_table_above_its_limit_is_not_read() {
    let file = rooms();
    let mut words = *Map::load(&file).unwrap().words();
    // the size of the clip nodes
    words[19] = u32::MAX;
    let map = Map::from_words(&file, words);
    let hull = map.hull(0, 1).unwrap().with_root(0);
    assert_eq!(map.contents_nodes(&hull, [0.0; 3]), Err(Refusal::Unreadable));
    assert_eq!(map.trace_nodes(&hull, [0.0; 3], [1.0; 3]), Err(Refusal::Unreadable));
    assert_eq!(map.tree_check(NodeTable::Clip, 0), Err(Refusal::ListTooShort));
}

#[test]
fn a_deep_chain_needs_less_than_1_mib_of_stack() {
    let deep = || {
        let file = chain(512);
        let map = Map::load(&file).unwrap();
        let hull = map.hull(0, 1).unwrap();
        map.trace_nodes(&hull, [0.0, 0.0, -1000.0], [0.0, 0.0, 9.0]).unwrap()
    };
    let small = std::thread::Builder::new().stack_size(1 << 20);
    let nodes = small.spawn(deep).unwrap().join().unwrap();
    assert_eq!(nodes, (0..512).collect::<Vec<u32>>());
}

//! The trials of document 01, through this crate.

mod common;

use bsp29::{BoxHull, Contents, Hull, Map, NodeTable, PlaneKind, Refusal, TraceEnd};
use common::{bytes, chain, file, rooms, smallest, Sections};

#[test]
fn empty_file_ends_early() {
    assert_eq!(Map::load(&[]).unwrap_err().number(), 1);
}

#[test]
fn version_28_is_refused() {
    let mut file = smallest();
    file[0] = 28;
    assert_eq!(Map::load(&file).unwrap_err().number(), 2);
}

#[test]
fn a_map_without_model_breaks_a_limit() {
    let mut parts = Sections::smallest();
    parts.models = vec![];
    assert_eq!(Map::load(&file(&parts)).unwrap_err().number(), 6);
}

#[test]
fn the_smallest_map_has_no_clip_node() {
    let file = smallest();
    assert_eq!(file.len(), 193);
    let map = Map::load(&file).unwrap();
    let counts = [
        map.planes().len(),
        map.render_nodes().len(),
        map.clip_nodes().len(),
        map.leaves().len(),
        map.faces().len(),
        map.models().len(),
        map.entities().unwrap().len(),
    ];
    assert_eq!(counts, [0, 0, 0, 0, 0, 1, 1]);
    let hull = map.hull(0, 1).unwrap();
    assert_eq!(map.contents(&hull, [0.0; 3]), Err(Refusal::IndexOutsideTable));
}

/// A map of one leaf with this row, after leaf 0.
fn map_with_row(row: &[u8]) -> Vec<u8> {
    let mut parts = Sections::smallest();
    parts.visibility = row.to_vec();
    let leaf = |offset: i32| {
        let mut leaf = bytes(&[-1, offset]);
        leaf.resize(28, 0);
        leaf
    };
    parts.leaves = [leaf(-1), leaf(0)].concat();
    file(&parts)
}

#[test]
fn visibility_rows() {
    let seen = |row: &[u8], count: usize| {
        let file = map_with_row(row);
        let map = Map::load(&file).unwrap();
        map.visible_leaves(1, count)
    };
    assert_eq!(seen(&[5, 1], 10).unwrap(), [1, 3, 9]);
    assert_eq!(seen(&[0, 1, 128], 17).unwrap(), [16]);
    assert!(seen(&[128], 2).unwrap().is_empty());
    assert_eq!(seen(&[255], 4).unwrap(), [1, 2, 3]);
    assert_eq!(seen(&[0], 2), Err(Refusal::RowOutsideData));
    assert!(seen(&[0], 1).unwrap().is_empty());
    assert_eq!(seen(&[255; 3], usize::MAX), Err(Refusal::RowOutsideData));
}

#[test]
fn visibility_of_other_leaves() {
    let file = map_with_row(&[5]);
    let map = Map::load(&file).unwrap();
    assert!(map.visible_leaves(0, 9).unwrap().is_empty());
    assert_eq!(map.visible_leaves(2, 9), Err(Refusal::NoSuchRecord));
}

/// The map, which a box does not read, and the box of document 01.
fn with_box(ask: impl Fn(&Map, &Hull)) {
    let file = smallest();
    let map = Map::load(&file).unwrap();
    ask(&map, &Hull::for_bounds([-1.0; 3], [1.0; 3]).unwrap());
}

#[test]
fn contents_of_a_box() {
    with_box(|map, hull| {
        let at = |point| map.contents(hull, point).unwrap().0;
        assert_eq!(at([-1.0, 0.0, 0.0]), Contents::Solid);
        assert_eq!(at([1.0, 0.0, 0.0]), Contents::Empty);
        for axis in 0..3 {
            let mut point = [0.0; 3];
            point[axis] = f32::NAN;
            assert_eq!(at(point), Contents::Empty);
        }
    });
}

#[test]
fn trace_into_a_box() {
    with_box(|map, hull| {
        let trace = map.trace(hull, [-3.0, 0.0, 0.0], [5.0, 0.0, 0.0]).unwrap();
        let TraceEnd::Boundary { ratio, plane } = trace.kind else { panic!("{trace:?}") };
        assert_eq!(trace.end, [-1.0, 0.0, 0.0]);
        assert_eq!(ratio, 0.5);
        assert_eq!((plane.kind, plane.normal), (PlaneKind::Normal, [-1.0, 0.0, 0.0]));
        assert_eq!(plane.dist, 1.0);
        assert_eq!(trace.visits, 6);
        assert!(!trace.start_solid);
    });
}

#[test]
fn trace_out_of_a_box() {
    with_box(|map, hull| {
        let trace = map.trace(hull, [0.0; 3], [4.0, 0.0, 0.0]).unwrap();
        assert_eq!(trace.kind, TraceEnd::Terminal);
        assert_eq!(trace.end, [1.0, 0.0, 0.0]);
        assert_eq!(trace.ratio(), 1.0);
        assert!(trace.start_solid);
        assert_eq!(trace.visits, 6);
    });
}

#[test]
fn a_nan_is_answered_as_one_nan() {
    with_box(|map, hull| {
        let odd = f32::from_bits(0xffc1_2345);
        let trace = map.trace(hull, [odd, 0.0, 0.0], [odd, 1.0, 0.0]).unwrap();
        assert_eq!(trace.start[0].to_bits(), 0x7fc0_0000);
        assert_eq!(trace.end[0].to_bits(), 0x7fc0_0000);
    });
    let hull = Hull::for_bounds([f32::NAN, 0.0, 0.0], [1.0; 3]).unwrap();
    assert_eq!(hull.mins()[0].to_bits(), 0x7fc0_0000);
}

#[test]
fn a_box_with_no_room_is_refused() {
    assert_eq!(Hull::for_bounds([1.0, 0.0, 0.0], [1.0; 3]).unwrap_err().number(), 21);
    assert_eq!(Hull::for_bounds([0.0, 0.0, 2.0], [1.0; 3]).unwrap_err().number(), 21);
}

#[test]
fn tree_checks() {
    with_box(|map, hull| assert_eq!(map.tree_check(hull.table(), hull.root()), Ok(6)));
    // a node whose children are the same node
    let mut parts = Sections::smallest();
    parts.planes = vec![0; 20];
    parts.clip_nodes = [[0, 0, 0, 0, 1, 0, 1, 0], [0, 0, 0, 0, 255, 255, 254, 255]].concat();
    let file = file(&parts);
    let map = Map::load(&file).unwrap();
    assert_eq!(map.tree_check(NodeTable::Clip, 0), Err(Refusal::ReachedTwice));
    assert_eq!(map.tree_check(NodeTable::Clip, 1), Ok(1));
    assert_eq!(map.tree_check(NodeTable::Clip, 2), Err(Refusal::IndexOutsideTable));
    assert_eq!(map.tree_check(NodeTable::Render, 0), Err(Refusal::IndexOutsideTable));
}

#[test]
fn a_walk_that_does_not_end() {
    let mut parts = Sections::smallest();
    parts.planes = vec![0; 20];
    parts.clip_nodes = vec![0; 8];
    let file = file(&parts);
    let map = Map::load(&file).unwrap();
    let hull = map.hull(0, 1).unwrap();
    assert_eq!(map.contents(&hull, [0.0; 3]), Err(Refusal::WalkTooLong));
    assert_eq!(map.trace(&hull, [0.0; 3], [1.0; 3]), Err(Refusal::TooDeep));
    assert_eq!(map.tree_check(NodeTable::Clip, 0), Err(Refusal::ReachedTwice));
}

#[test]
fn a_chain_of_512_needs_less_than_1_mib_of_stack() {
    let deep = |length: i32| {
        let file = chain(length);
        let map = Map::load(&file).unwrap();
        let hull = map.hull(0, 1).unwrap();
        let trace = map.trace(&hull, [0.0, 0.0, -1000.0], [0.0, 0.0, 9.0]);
        (trace.map(|trace| trace.visits), map.tree_check(NodeTable::Clip, 0))
    };
    let small = std::thread::Builder::new().stack_size(1 << 20);
    let (of_512, of_513) = small.spawn(move || (deep(512), deep(513))).unwrap().join().unwrap();
    assert_eq!(of_512, (Ok(512), Ok(512)));
    assert_eq!(of_513, (Err(Refusal::TooDeep), Err(Refusal::TooDeep)));
}

/// A map with one face whose corners lie `difference` blocks of 16 apart.
fn map_with_face(difference: f32) -> Vec<u8> {
    let mut parts = Sections::smallest();
    parts.textures = bytes(&[1, -1]);
    parts.vertices = bytes(&[0, 0, 0, (16.0 * difference).to_bits() as i32, 0, 0]);
    parts.edges = [[0, 0, 0, 0], [0, 0, 1, 0], [1, 0, 0, 0]].concat();
    parts.edge_list = bytes(&[1, 2, 1]);
    parts.texture_infos = bytes(&[1.0f32.to_bits() as i32, 0, 0, 0, 0, 0, 0, 0, 0, 0]);
    parts.faces = vec![0; 20];
    parts.faces[8] = 3;
    file(&parts)
}

#[test]
fn extents() {
    let extent = |difference| {
        let file = map_with_face(difference);
        Map::load(&file).map(|map| map.faces().get(0).unwrap().extents[0])
    };
    assert_eq!(extent(125.0), Ok(2000));
    assert_eq!(extent(126.0), Err(Refusal::BadExtents));
    assert_eq!(extent(2048.0), Ok(-32768));
}

#[test]
fn numbers_outside_their_tables() {
    let file = rooms();
    let map = Map::load(&file).unwrap();
    assert_eq!(map.hull(0, 3), Err(Refusal::NoSuchRecord));
    assert_eq!(map.hull(2, 0), Err(Refusal::NoSuchRecord));
    assert_eq!(map.hull(usize::MAX, 0), Err(Refusal::NoSuchRecord));
    assert_eq!(map.planes().get(usize::MAX), Err(Refusal::NoSuchRecord));
}

#[test]
fn an_empty_entity_text_may_lie_past_the_end() {
    let mut file = smallest();
    file[4..12].copy_from_slice(&bytes(&[i32::MAX, 0]));
    let map = Map::load(&file).unwrap();
    assert_eq!(map.entities().unwrap(), []);
    assert_eq!(map.entity_text().unwrap(), "");
}

#[test]
fn a_box_without_a_map() {
    let file = rooms();
    let map = Map::load(&file).unwrap();
    let special = [0.0, -0.0, 1.0, -1.0, 0.5, 7.5, f32::NAN, f32::INFINITY, f32::MIN, 1e-40];
    let at = |n: usize| special[n % special.len()];
    let mut asked = 0;
    for n in 0..2000usize {
        let (mins, maxs) = ([at(n), at(n / 3), -2.0], [at(n / 7), at(n / 11), 3.0]);
        let hull = BoxHull::new(mins, maxs);
        assert_eq!(hull.map(|hull| *hull.hull()), Hull::for_bounds(mins, maxs));
        let Ok(hull) = hull else { continue };
        let (a, b) = ([at(n / 2), at(n / 5), at(n / 13)], [at(n / 17), at(n / 19), at(n / 23)]);
        // by their text, since no NaN equals itself
        let shown = format!("{:?}", (hull.contents(a), hull.trace(a, b), hull.trace_line(a, b)));
        let by_map = (
            map.contents(hull.hull(), a),
            map.trace(hull.hull(), a, b),
            map.trace_line(hull.hull(), a, b),
        );
        assert_eq!(shown, format!("{by_map:?}"));
        assert!(hull.contents(a).is_ok() && hull.trace(a, b).is_ok());
        assert!(hull.trace_line(a, b).is_ok());
        asked += 1;
    }
    assert!(asked > 300, "{asked}");
}

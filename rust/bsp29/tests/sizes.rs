//! A hall's own body sizes: files of them, and hulls with sizes made by hand.

mod common;

use bsp29::*;
use common::rooms;

/// The built-in rows, as docs/SCOPE.md has them.
const BUILT_IN: BodySizes = BodySizes {
    hull_1: Bounds { mins: [-16.0, -16.0, -24.0], maxs: [16.0, 16.0, 32.0] },
    hull_2: Bounds { mins: [-32.0, -32.0, -24.0], maxs: [32.0, 32.0, 64.0] },
};

fn field(tag: u8, body: &Bounds) -> Vec<u8> {
    let floats = [body.mins, body.maxs].concat();
    let value: Vec<u8> = floats.iter().flat_map(|float| float.to_le_bytes()).collect();
    [&[tag, 24, 0][..], &value].concat()
}

fn file_of(sizes: &BodySizes) -> [Vec<u8>; 2] {
    let (one, two) = (field(1, &sizes.hull_1), field(2, &sizes.hull_2));
    [[&one[..], &two[..]].concat(), [&two[..], &one[..]].concat()]
}

#[test]
fn either_order() {
    for bytes in file_of(&BUILT_IN) {
        assert_eq!(BodySizes::parse(&bytes), Ok(BUILT_IN));
        for length in 0..bytes.len() {
            assert_eq!(BodySizes::parse(&bytes[..length]), Err(Refusal::InvalidSizesFile));
        }
    }
}

#[test]
fn no_bodies() {
    for bound in [f32::NAN, f32::INFINITY, f32::NEG_INFINITY, -32.0] {
        let mut sizes = BUILT_IN;
        sizes.hull_2.maxs[1] = bound;
        for bytes in file_of(&sizes) {
            assert_eq!(BodySizes::parse(&bytes), Err(Refusal::NotABody));
            let longer = [&bytes[..], &[3, 0, 0]].concat();
            assert_eq!(BodySizes::parse(&longer), Err(Refusal::InvalidSizesFile));
        }
    }
}

#[test]
fn the_built_in_sizes_by_hand() {
    let file = rooms();
    let map = Map::load(&file).unwrap();
    for (model, index) in [(0, 0), (0, 1), (0, 2), (1, 0), (1, 1), (1, 2), (2, 1), (0, 3)] {
        assert_eq!(map.hull_with(&BUILT_IN, model, index), map.hull(model, index));
    }
}

#[test]
fn taken_as_they_are() {
    let file = rooms();
    let map = Map::load(&file).unwrap();
    let odd = Bounds { mins: [9.0, f32::INFINITY, -0.0], maxs: [-9.0, 0.0, 0.0] };
    let sizes = BodySizes { hull_1: odd, hull_2: BUILT_IN.hull_2 };
    let hull = map.hull_with(&sizes, 1, 1).unwrap();
    assert_eq!((hull.mins(), hull.maxs()), (odd.mins, odd.maxs));
    assert!(hull.mins()[2].is_sign_negative());
    let plain = map.hull(1, 1).unwrap();
    assert_eq!(hull.with_bounds(plain.mins(), plain.maxs()), plain);
    let (start, end) = ([-64.0, 0.0, 0.0], [64.0, 0.0, 0.0]);
    assert_eq!(map.trace(&hull, start, end), map.trace(&plain, start, end));
    assert_eq!(map.contents(&hull, start), map.contents(&plain, start));
    let filled = map.hull_check(&hull).unwrap();
    let size = map.hull_check(&plain).unwrap();
    assert_eq!((filled.nodes(), filled.height()), (size.nodes(), size.height()));
}

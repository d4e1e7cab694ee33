//! A slice of a hull, square by square: the contents, or the leaf, at the middle of each.

use super::view::View;
use crate::map::Map;
use bsp29::{Contents, Hull, Refusal};

/// The side of a block of squares that is asked in one call: 32 by 32 are the most points of a call,
/// and points that lie together go down the tree together.
const BLOCK: usize = 32;

/// What is at a square: contents, or a call that was refused.
pub type Square = Result<Contents, Refusal>;

/// The contents of every square, row by row.
pub fn contents(map: &Map<'_>, hull: &Hull, view: &View, height: f32) -> Vec<Square> {
    let mut squares = vec![Ok(Contents::Solid); view.columns * view.rows];
    for top in (0..view.rows).step_by(BLOCK) {
        for left in (0..view.columns).step_by(BLOCK) {
            let places = block(view, left, top);
            let points: Vec<[f32; 3]> =
                places.iter().map(|(column, row)| view.point(*column, *row, height)).collect();
            for ((column, row), square) in places.iter().zip(asked(map, hull, &points)) {
                squares[row * view.columns + column] = square;
            }
        }
    }
    squares
}

/// The squares of a block.
fn block(view: &View, left: usize, top: usize) -> Vec<(usize, usize)> {
    let columns = left..(left + BLOCK).min(view.columns);
    let rows = top..(top + BLOCK).min(view.rows);
    rows.flat_map(|row| columns.clone().map(move |column| (column, row))).collect()
}

/// The contents of points by one call, or, where one of them is refused, point by point.
fn asked(map: &Map<'_>, hull: &Hull, points: &[[f32; 3]]) -> Vec<Square> {
    match map.contents_at_points(hull, points) {
        Ok((contents, _)) => contents.into_iter().map(Ok).collect(),
        Err(_) => {
            let one = |point: &[f32; 3]| map.contents(hull, *point).map(|(contents, _)| contents);
            points.iter().map(one).collect()
        }
    }
}

/// The leaf of every square, row by row.
pub fn leaves(map: &Map<'_>, root: usize, view: &View, height: f32) -> Vec<Result<usize, Refusal>> {
    let places = (0..view.rows).flat_map(|row| (0..view.columns).map(move |column| (column, row)));
    let leaf = |(column, row)| {
        map.find_leaf_from(root, view.point(column, row, height)).map(|(leaf, _)| leaf)
    };
    places.map(leaf).collect()
}

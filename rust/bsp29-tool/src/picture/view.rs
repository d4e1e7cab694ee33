//! Which part of the map a drawing shows: a rectangle seen from above, north up.

use super::scene::At;
use crate::map::Map;

/// The map reaches so far at most in the drawings: a number of the file may be any.
const FAR: f32 = 131_072.0;

/// A rectangle of the map and its drawing, square by square.
#[derive(Clone, Debug)]
pub struct View {
    /// West and east, south and north.
    pub x: [f32; 2],
    pub y: [f32; 2],
    /// Map units a square.
    pub unit: f32,
    pub columns: usize,
    pub rows: usize,
    /// The side of a square in pixels, and the upper left of the drawing.
    pub side: u32,
    pub at: [u32; 2],
}

/// The lower and the upper corner of something.
pub type Corners = ([f32; 3], [f32; 3]);

impl View {
    /// A view of what lies between two corners, with some room around it; its longer side has so many
    /// squares.
    pub fn of((mins, maxs): Corners, squares: u32, side: u32, at: [u32; 2]) -> View {
        let longer = (maxs[0] - mins[0]).max(maxs[1] - mins[1]);
        let room = longer * 0.04 + 1.0;
        let unit = (longer + 2.0 * room) / squares as f32;
        let count = |axis: usize| {
            let length = maxs[axis] - mins[axis] + 2.0 * room;
            ((length / unit).ceil() as usize).clamp(1, squares as usize)
        };
        let (columns, rows) = (count(0), count(1));
        View {
            x: [mins[0] - room, mins[0] - room + unit * columns as f32],
            y: [maxs[1] + room - unit * rows as f32, maxs[1] + room],
            unit,
            columns,
            rows,
            side,
            at,
        }
    }

    /// The point of the map in the middle of a square.
    pub fn point(&self, column: usize, row: usize, height: f32) -> [f32; 3] {
        let x = self.x[0] + (column as f32 + 0.5) * self.unit;
        let y = self.y[1] - (row as f32 + 0.5) * self.unit;
        [x, y, height]
    }

    /// The place of a point in the picture.
    pub fn place(&self, [x, y, _]: [f32; 3]) -> At {
        let pixels = self.side as f32 / self.unit;
        [self.at[0] as f32 + (x - self.x[0]) * pixels, self.at[1] as f32 + (self.y[1] - y) * pixels]
    }

    /// The pixels of the drawing.
    pub fn width(&self) -> u32 {
        self.columns as u32 * self.side
    }

    pub fn height(&self) -> u32 {
        self.rows as u32 * self.side
    }
}

/// The corners of a model: those of its record, or where they are no box of a map, those of its first
/// render node, or else those of a small map.
pub fn corners(map: &Map<'_>, model: usize) -> Corners {
    let record = map.models().get(model).ok();
    let by_model = record.as_ref().map(|model| (model.min, model.max));
    let root = record.as_ref().map_or(0, |model| model.hull_roots[0]);
    let by_node = map.render_nodes().get(root).ok();
    let by_node = by_node.map(|node| (node.min.map(f32::from), node.max.map(f32::from)));
    let found = by_model.filter(is_box).or(by_node.filter(is_box));
    found.unwrap_or(([-512.0; 3], [512.0; 3]))
}

fn is_box((mins, maxs): &Corners) -> bool {
    mins.iter().zip(maxs).all(|(min, max)| -FAR <= *min && min < max && *max <= FAR)
}

#[cfg(test)]
mod tests {
    use super::*;

    #[test]
    fn places_and_points_are_each_others() {
        let view = View::of(([-100.0, -50.0, 0.0], [100.0, 50.0, 9.0]), 400, 2, [7, 9]);
        assert_eq!(view.columns, 400);
        assert!(view.rows < 240);
        for (column, row) in [(0, 0), (399, 0), (17, view.rows - 1)] {
            let [x, y] = view.place(view.point(column, row, 3.0));
            assert!((x - (8.0 + 2.0 * column as f32)).abs() < 0.01, "{x}");
            assert!((y - (10.0 + 2.0 * row as f32)).abs() < 0.01, "{y}");
        }
    }

    #[test]
    fn only_boxes_of_a_map_are_taken() {
        assert!(is_box(&([-1.0; 3], [1.0; 3])));
        for wrong in [f32::NAN, f32::INFINITY, 1e9, -1.0] {
            assert!(!is_box(&([-1.0; 3], [1.0, wrong, 1.0])));
        }
    }
}

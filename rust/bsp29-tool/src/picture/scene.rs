//! What a picture is made of, before it is SVG or PNG. Places are in pixels from the upper left.

/// Red, green, blue.
pub type Color = [u8; 3];

pub const BLACK: Color = [0x20, 0x20, 0x20];
pub const WHITE: Color = [0xff, 0xff, 0xff];
pub const RED: Color = [0xd0, 0x10, 0x20];
pub const GREY: Color = [0x80, 0x80, 0x80];

/// A place.
pub type At = [f32; 2];

/// How large letters are: the factor by which those of `font` are drawn.
#[derive(Copy, Clone, Debug, PartialEq, Eq)]
pub enum Letters {
    Small = 1,
    Large = 2,
}

/// A row of rows of squares, each of a color of the list.
pub struct Cells {
    pub at: [u32; 2],
    /// The side of a square.
    pub side: u32,
    pub columns: usize,
    /// The number of each square's color, row by row.
    pub cells: Vec<u8>,
    pub colors: Vec<Color>,
}

pub enum Item {
    Cells(Cells),
    Box { at: At, size: At, fill: Option<Color>, edge: Option<Color> },
    Line { from: At, to: At, color: Color, width: f32, dashed: bool },
    Ring { at: At, radius: f32, color: Color },
    Text { at: At, text: String, color: Color, letters: Letters },
}

/// A picture.
pub struct Scene {
    pub width: u32,
    pub height: u32,
    pub items: Vec<Item>,
    /// The part outside which lines are cut: its upper left and its lower right.
    pub window: (At, At),
}

impl Scene {
    pub fn new(width: u32, height: u32) -> Scene {
        let size = [width as f32, height as f32];
        let paper = Item::Box { at: [0.0; 2], size, fill: Some(WHITE), edge: None };
        Scene { width, height, items: vec![paper], window: ([0.0; 2], size) }
    }

    pub fn text(&mut self, at: At, text: impl Into<String>, letters: Letters) {
        self.items.push(Item::Text { at, text: text.into(), color: BLACK, letters });
    }

    /// A line, unless an end of it is no place.
    pub fn line(&mut self, from: At, to: At, color: Color, width: f32) {
        self.push_line(from, to, color, width, false);
    }

    pub fn dashed(&mut self, from: At, to: At, color: Color, width: f32) {
        self.push_line(from, to, color, width, true);
    }

    fn push_line(&mut self, from: At, to: At, color: Color, width: f32, dashed: bool) {
        if let Some((from, to)) = clip(from, to, self.window) {
            self.items.push(Item::Line { from, to, color, width, dashed });
        }
    }

    pub fn ring(&mut self, at: At, radius: f32, color: Color) {
        let (low, high) = self.window;
        if (0..2).all(|axis| low[axis] <= at[axis] && at[axis] <= high[axis]) {
            self.items.push(Item::Ring { at, radius, color });
        }
    }

    pub fn outline(&mut self, from: At, to: At, color: Color) {
        let corners = [from, [to[0], from[1]], to, [from[0], to[1]]];
        for n in 0..4 {
            self.line(corners[n], corners[(n + 1) % 4], color, 2.0);
        }
    }
}

/// The part of a line within a window; none where there is none, or where an end is not finite.
fn clip(from: At, to: At, (low, high): (At, At)) -> Option<(At, At)> {
    let way = [to[0] - from[0], to[1] - from[1]];
    if !from.iter().chain(&way).all(|number| number.is_finite()) {
        return None;
    }
    let (mut first, mut last) = (0.0_f32, 1.0_f32);
    for axis in 0..2 {
        if way[axis] == 0.0 {
            if from[axis] < low[axis] || from[axis] > high[axis] {
                return None;
            }
            continue;
        }
        let (a, b) = ((low[axis] - from[axis]) / way[axis], (high[axis] - from[axis]) / way[axis]);
        first = first.max(a.min(b));
        last = last.min(a.max(b));
    }
    let at = |share: f32| [from[0] + share * way[0], from[1] + share * way[1]];
    (first <= last).then(|| (at(first), at(last)))
}

#[cfg(test)]
mod tests {
    use super::*;

    #[test]
    fn lines_end_at_the_edge() {
        let size = ([0.0, 0.0], [10.0, 10.0]);
        assert_eq!(clip([-5.0, 5.0], [15.0, 5.0], size), Some(([0.0, 5.0], [10.0, 5.0])));
        assert_eq!(clip([2.0, 3.0], [4.0, 5.0], size), Some(([2.0, 3.0], [4.0, 5.0])));
        assert_eq!(clip([11.0, 0.0], [11.0, 9.0], size), None);
        assert_eq!(clip([f32::NAN, 0.0], [1.0, 1.0], size), None);
        assert_eq!(clip([0.0, 0.0], [f32::INFINITY, 1.0], size), None);
        assert_eq!(clip([-f32::MAX, 0.0], [f32::MAX, 0.0], size), None);
    }
}

//! The sheet around a drawing: title, frame, scale, legend and notes.

use super::colors;
use super::font;
use super::scene::{Cells, Color, Item, Letters, Scene, BLACK, GREY};
use super::view::View;
use crate::text::cut;

/// The room around, and that for the title.
pub const MARGIN: u32 = 12;
pub const HEAD: u32 = 44;
const LEAST_WIDTH: u32 = 420;
const LINE: u32 = 20;
const NOTE_LINE: u32 = 12;
const SCALE: u32 = 26;

/// What stands around a drawing.
pub struct Sheet {
    pub title: String,
    /// A line in small letters below the title.
    pub detail: String,
    pub legend: Vec<(Color, String)>,
    /// Sentences below the legend.
    pub notes: Vec<String>,
}

impl Sheet {
    /// The picture of a drawing: its squares, and what `over` draws over them.
    pub fn around(&self, view: &View, cells: Cells, over: impl FnOnce(&mut Scene)) -> Scene {
        let width = view.width().max(LEAST_WIDTH) + 2 * MARGIN;
        let legend = self.placed(width);
        let legend_height = legend.last().map_or(0, |(_, row, ..)| (row + 1) * LINE);
        let notes = self.wrapped(width);
        let foot = SCALE + legend_height + notes.len() as u32 * NOTE_LINE + MARGIN;
        let mut scene = Scene::new(width, HEAD + view.height() + foot);
        self.head(&mut scene);
        let (at, size) = (view.at.map(|at| at as f32), [view.width() as f32, view.height() as f32]);
        scene.items.push(Item::Cells(cells));
        let whole = scene.window;
        scene.window = (at, [at[0] + size[0], at[1] + size[1]]);
        over(&mut scene);
        scene.window = whole;
        scene.items.push(Item::Box { at, size, fill: None, edge: Some(GREY) });
        let below = (HEAD + view.height()) as f32;
        scale(&mut scene, view, below + 8.0);
        let top = below + SCALE as f32;
        draw_legend(&mut scene, &legend, top);
        for (n, note) in notes.iter().enumerate() {
            let y = top + legend_height as f32 + (n as u32 * NOTE_LINE) as f32;
            scene.text([MARGIN as f32, y], note.as_str(), Letters::Small);
        }
        scene
    }

    fn head(&self, scene: &mut Scene) {
        let letters = |letters: Letters| {
            ((scene.width - 2 * MARGIN) as usize / font::NEXT / letters as usize).max(1)
        };
        let (title, detail) =
            (cut(&self.title, letters(Letters::Large)), cut(&self.detail, letters(Letters::Small)));
        scene.text([MARGIN as f32, 8.0], title, Letters::Large);
        scene.text([MARGIN as f32, 29.0], detail, Letters::Small);
    }

    /// The legend's entries with their places: left, row, color, name.
    fn placed(&self, width: u32) -> Vec<(u32, u32, Color, &str)> {
        let (mut left, mut row) = (MARGIN, 0);
        let mut placed = Vec::new();
        for (color, name) in &self.legend {
            let wide = 20 + (name.chars().count() * font::NEXT * 2) as u32;
            if left > MARGIN && left + wide > width - MARGIN {
                (left, row) = (MARGIN, row + 1);
            }
            placed.push((left, row, *color, name.as_str()));
            left += wide + 16;
        }
        placed
    }

    /// The notes in lines, cut at spaces.
    fn wrapped(&self, width: u32) -> Vec<String> {
        let most = ((width - 2 * MARGIN) as usize / font::NEXT).max(8);
        let mut lines = Vec::new();
        for note in &self.notes {
            let mut line = String::new();
            for word in note.split(' ') {
                if !line.is_empty() && line.chars().count() + 1 + word.chars().count() > most {
                    lines.push(std::mem::take(&mut line));
                }
                if !line.is_empty() {
                    line.push(' ');
                }
                line += &cut(word, most);
            }
            lines.push(line);
        }
        lines
    }
}

fn draw_legend(scene: &mut Scene, legend: &[(u32, u32, Color, &str)], top: f32) {
    for (left, row, color, name) in legend {
        let y = top + (row * LINE) as f32;
        let at = [*left as f32, y];
        scene.items.push(Item::Box { at, size: [14.0; 2], fill: Some(*color), edge: Some(GREY) });
        scene.text([*left as f32 + 20.0, y], *name, Letters::Large);
    }
}

/// A bar of a round number of units, at most a third of the drawing.
fn scale(scene: &mut Scene, view: &View, y: f32) {
    let pixels = view.side as f32 / view.unit;
    let units = round_number(view.width() as f32 / pixels / 3.0);
    let (left, right) = (MARGIN as f32, MARGIN as f32 + units * pixels);
    scene.line([left, y + 4.0], [right, y + 4.0], BLACK, 2.0);
    for x in [left, right] {
        scene.line([x, y], [x, y + 8.0], BLACK, 2.0);
    }
    scene.text([right + 8.0, y], format!("{units} units"), Letters::Small);
}

/// The greatest of 1, 2 and 5 times a power of ten that is not above a number.
fn round_number(most: f32) -> f32 {
    let power = 10_f32.powf(most.max(1e-3).log10().floor());
    [5.0, 2.0, 1.0].into_iter().map(|digit| digit * power).find(|n| *n <= most).unwrap_or(power)
}

/// The legend of the squares that a drawing has.
pub fn legend(cells: &Cells) -> Vec<(Color, String)> {
    let mut there = [false; 256];
    cells.cells.iter().for_each(|cell| there[usize::from(*cell)] = true);
    let entry = |(number, color): (usize, &Color)| {
        let name = colors::name(number as u8).filter(|_| there[number])?;
        Some((*color, name))
    };
    cells.colors.iter().enumerate().filter_map(entry).collect()
}

#[cfg(test)]
mod tests {
    use super::*;

    #[test]
    fn a_scale_is_a_round_number() {
        for (most, units) in
            [(99.0, 50.0), (100.0, 100.0), (7.0, 5.0), (1999.0, 1000.0), (0.3, 0.2)]
        {
            assert!((round_number(most) - units).abs() < units * 1e-5);
        }
    }
}

//! A picture as PNG.

use super::font;
use super::scene::{At, Cells, Color, Item, Letters, Scene, WHITE};

/// The bytes of the picture.
pub fn png(scene: &Scene) -> Result<Vec<u8>, png::EncodingError> {
    let mut sheet = Sheet::new(scene.width as usize, scene.height as usize);
    for item in &scene.items {
        sheet.draw(item);
    }
    let mut bytes = Vec::new();
    let mut encoder = png::Encoder::new(&mut bytes, scene.width, scene.height);
    encoder.set_color(png::ColorType::Rgb);
    encoder.set_depth(png::BitDepth::Eight);
    // a line is mostly the one above it
    encoder.set_filter(png::FilterType::Up);
    encoder.set_compression(png::Compression::Best);
    let mut writer = encoder.write_header()?;
    writer.write_image_data(&sheet.pixels)?;
    writer.finish()?;
    Ok(bytes)
}

struct Sheet {
    width: usize,
    height: usize,
    pixels: Vec<u8>,
}

impl Sheet {
    fn new(width: usize, height: usize) -> Sheet {
        Sheet { width, height, pixels: WHITE.repeat(width * height) }
    }

    fn draw(&mut self, item: &Item) {
        match item {
            Item::Cells(cells) => self.cells(cells),
            Item::Box { at, size, fill, edge } => self.rectangle(*at, *size, *fill, *edge),
            Item::Line { from, to, color, width, dashed } => {
                self.line(*from, *to, *color, *width, *dashed);
            }
            Item::Ring { at, radius, color } => self.ring(*at, *radius, *color),
            Item::Text { at, text, color, letters } => self.text(*at, text, *color, *letters),
        }
    }

    /// Inks a pixel, if it is in the picture.
    fn ink(&mut self, x: i64, y: i64, color: Color) {
        let (Ok(x), Ok(y)) = (usize::try_from(x), usize::try_from(y)) else { return };
        if x < self.width && y < self.height {
            let at = 3 * (y * self.width + x);
            self.pixels[at..at + 3].copy_from_slice(&color);
        }
    }

    /// Inks the pixels from one place to before another.
    fn fill(&mut self, from: [i64; 2], to: [i64; 2], color: Color) {
        let [right, lower] = [to[0].min(self.width as i64), to[1].min(self.height as i64)];
        for y in from[1].max(0)..lower {
            for x in from[0].max(0)..right {
                self.ink(x, y, color);
            }
        }
    }

    fn cells(&mut self, cells: &Cells) {
        let side = i64::from(cells.side);
        let [left, upper] = cells.at.map(i64::from);
        for (row, line) in cells.cells.chunks(cells.columns.max(1)).enumerate() {
            for (column, cell) in line.iter().enumerate() {
                let at = [left + column as i64 * side, upper + row as i64 * side];
                if let Some(color) = cells.colors.get(usize::from(*cell)) {
                    self.fill(at, [at[0] + side, at[1] + side], *color);
                }
            }
        }
    }

    fn rectangle(&mut self, at: At, size: At, fill: Option<Color>, edge: Option<Color>) {
        let from = [at[0].round() as i64, at[1].round() as i64];
        let to = [(at[0] + size[0]).round() as i64, (at[1] + size[1]).round() as i64];
        if let Some(color) = fill {
            self.fill(from, to, color);
        }
        if let Some(color) = edge {
            self.fill(from, [to[0], from[1] + 1], color);
            self.fill([from[0], to[1] - 1], to, color);
            self.fill(from, [from[0] + 1, to[1]], color);
            self.fill([to[0] - 1, from[1]], to, color);
        }
    }

    /// A line by steps of at most a pixel; the scene has cut it to the picture.
    fn line(&mut self, from: At, to: At, color: Color, width: f32, dashed: bool) {
        let way = [to[0] - from[0], to[1] - from[1]];
        let steps = way[0].abs().max(way[1].abs()).ceil().clamp(1.0, 1e5) as usize;
        let (low, high) = ((width / 2.0) as i64, ((width + 1.0) / 2.0) as i64);
        for step in 0..=steps {
            if dashed && step % 11 >= 6 {
                continue;
            }
            let share = step as f32 / steps as f32;
            let x = (from[0] + share * way[0]).floor() as i64;
            let y = (from[1] + share * way[1]).floor() as i64;
            self.fill([x - low, y - low], [x + high, y + high], color);
        }
    }

    fn ring(&mut self, at: At, radius: f32, color: Color) {
        let reach = radius.ceil() as i64 + 2;
        let middle = [at[0].floor() as i64, at[1].floor() as i64];
        for y in -reach..=reach {
            for x in -reach..=reach {
                let distance = ((x * x + y * y) as f32).sqrt();
                if (distance - radius).abs() <= 1.0 {
                    self.ink(middle[0] + x, middle[1] + y, color);
                }
            }
        }
    }

    fn text(&mut self, at: At, text: &str, color: Color, letters: Letters) {
        let scale = letters as i64;
        let [left, upper] = [at[0].round() as i64, at[1].round() as i64];
        for (n, letter) in text.chars().enumerate() {
            let left = left + (n * font::NEXT) as i64 * scale;
            if left >= self.width as i64 {
                return;
            }
            for y in 0..font::HIGH {
                for x in (0..font::WIDE).filter(|x| font::inked(letter, *x, y)) {
                    let dot = [left + x as i64 * scale, upper + y as i64 * scale];
                    self.fill(dot, [dot[0] + scale, dot[1] + scale], color);
                }
            }
        }
    }
}

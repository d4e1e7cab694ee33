//! A picture as SVG.

use super::font;
use super::scene::{Cells, Color, Item, Letters, Scene};
use std::fmt::Write;

/// The text of the picture.
pub fn svg(scene: &Scene) -> String {
    let Scene { width, height, items, .. } = scene;
    let mut out = format!(
        "<svg xmlns=\"http://www.w3.org/2000/svg\" width=\"{width}\" height=\"{height}\" \
         viewBox=\"0 0 {width} {height}\" shape-rendering=\"crispEdges\">\n"
    );
    for item in items {
        // writing to a string does not fail
        let _ = draw(&mut out, item);
    }
    out + "</svg>\n"
}

fn draw(out: &mut String, item: &Item) -> std::fmt::Result {
    match item {
        Item::Cells(cells) => draw_cells(out, cells),
        Item::Box { at: [x, y], size: [w, h], fill, edge } => {
            let fill = fill.map_or("none".to_string(), hex);
            write!(out, "<rect x=\"{x}\" y=\"{y}\" width=\"{w}\" height=\"{h}\" fill=\"{fill}\"")?;
            if let Some(edge) = edge {
                write!(out, " stroke=\"{}\"", hex(*edge))?;
            }
            writeln!(out, "/>")
        }
        Item::Line { from: [a, b], to: [c, d], color, width, dashed } => {
            let dash = if *dashed { " stroke-dasharray=\"6 5\"" } else { "" };
            let color = hex(*color);
            writeln!(
                out,
                "<line x1=\"{a}\" y1=\"{b}\" x2=\"{c}\" y2=\"{d}\" stroke=\"{color}\" \
                 stroke-width=\"{width}\"{dash}/>"
            )
        }
        Item::Ring { at: [x, y], radius, color } => writeln!(
            out,
            "<circle cx=\"{x}\" cy=\"{y}\" r=\"{radius}\" fill=\"none\" stroke=\"{}\" \
             stroke-width=\"2\"/>",
            hex(*color)
        ),
        Item::Text { at: [x, y], text, color, letters } => {
            let size = letter_size(*letters);
            // the place is that of the upper left, and SVG's that of the line on which letters stand
            let base = y + 7.0 * (*letters as u32 as f32);
            writeln!(
                out,
                "<text x=\"{x}\" y=\"{base}\" font-family=\"monospace\" font-size=\"{size}\" \
                 fill=\"{}\">{}</text>",
                hex(*color),
                escaped(text)
            )
        }
    }
}

/// The size at which a letter of a fixed width is at most as wide as the one in pixels.
fn letter_size(letters: Letters) -> usize {
    font::NEXT * letters as usize * 5 / 3
}

/// A color as SVG writes it.
pub fn hex([red, green, blue]: Color) -> String {
    format!("#{red:02x}{green:02x}{blue:02x}")
}

/// A text for XML or HTML. Characters that these may not hold are left out.
pub fn escaped(text: &str) -> String {
    let mut out = String::with_capacity(text.len());
    for c in text.chars() {
        match c {
            '&' => out.push_str("&amp;"),
            '<' => out.push_str("&lt;"),
            '>' => out.push_str("&gt;"),
            '"' => out.push_str("&quot;"),
            '\'' => out.push_str("&#39;"),
            c if c.is_control() || matches!(c, '\u{fffe}' | '\u{ffff}') => {}
            c => out.push(c),
        }
    }
    out
}

/// The squares, as a path for each color: runs of a row, and where the next row has the same run it
/// is the same box.
fn draw_cells(out: &mut String, cells: &Cells) -> std::fmt::Result {
    for (number, color) in cells.colors.iter().enumerate() {
        let boxes = boxes(cells, number as u8);
        if boxes.is_empty() {
            continue;
        }
        write!(out, "<path fill=\"{}\" d=\"", hex(*color))?;
        for [x, y, w, h] in boxes {
            write!(out, "M{x} {y}h{w}v{h}h-{w}z")?;
        }
        writeln!(out, "\"/>")?;
    }
    Ok(())
}

/// The boxes of one color: left, upper, width, height, in pixels.
fn boxes(cells: &Cells, color: u8) -> Vec<[u32; 4]> {
    let mut done: Vec<[u32; 4]> = Vec::new();
    // the boxes that reach down to the row before, from left to right
    let mut open: Vec<[u32; 4]> = Vec::new();
    for (row, line) in cells.cells.chunks(cells.columns.max(1)).enumerate() {
        let runs = runs(line, color);
        let (grown, ended): (Vec<_>, Vec<_>) =
            open.into_iter().partition(|[x, _, w, _]| runs.binary_search(&(*x, *w)).is_ok());
        done.extend(ended);
        open = runs
            .into_iter()
            .map(|(x, w)| match grown.binary_search_by_key(&x, |grown| grown[0]) {
                Ok(at) => [x, grown[at][1], w, grown[at][3] + 1],
                Err(_) => [x, row as u32, w, 1],
            })
            .collect();
    }
    done.extend(open);
    let Cells { at, side, .. } = cells;
    done.iter()
        .map(|[x, y, w, h]| [at[0] + x * side, at[1] + y * side, w * side, h * side])
        .collect()
}

/// The runs of a color in a row: where each begins and how long it is.
fn runs(line: &[u8], color: u8) -> Vec<(u32, u32)> {
    let mut runs = Vec::new();
    let mut at = 0;
    for run in line.chunk_by(|a, b| a == b) {
        if run[0] == color {
            runs.push((at, run.len() as u32));
        }
        at += run.len() as u32;
    }
    runs
}

#[cfg(test)]
mod tests {
    use super::*;

    #[test]
    fn equal_runs_below_one_another_are_one_box() {
        let cells = Cells {
            at: [10, 20],
            side: 2,
            columns: 4,
            cells: vec![1, 1, 0, 1, 1, 1, 0, 0, 0, 1, 1, 1],
            colors: vec![[0; 3], [1; 3]],
        };
        let mut found = boxes(&cells, 1);
        found.sort();
        assert_eq!(found, [[10, 20, 4, 4], [12, 24, 6, 2], [16, 20, 2, 2]]);
    }

    #[test]
    fn no_text_is_markup() {
        assert_eq!(escaped("<a b='c'>&\u{1b}\"\u{9b}"), "&lt;a b=&#39;c&#39;&gt;&amp;&quot;");
    }
}

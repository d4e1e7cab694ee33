//! The picture of a map that does not pass: the place in the map, or else the place in the file.

use super::plan::{self, Asked, Shown};
use super::scene::{Item, Letters, Scene, BLACK, GREY, RED};
use super::sheet::MARGIN;
use super::view::View;
use crate::layout::{Directory, HEADER, SECTIONS};
use crate::map::{Map, Source};
use crate::place::Mark;
use crate::text::{cut, path_text};
use crate::verdict::Judged;
use bsp29::Refusal;

/// The pixels of the longer side.
const SIZE: u32 = 400;

/// The picture of what was refused.
pub fn scene(source: &Source, judged: &Judged<'_>) -> Scene {
    let fault = judged.fault.as_ref();
    let notes: Vec<String> = judged.verdict.reason().into_iter().collect();
    let drawn = match (&judged.map, fault) {
        (Some(map), Some(fault)) => in_map(map, &fault.mark, title(source), notes.clone()).ok(),
        _ => None,
    };
    drawn.unwrap_or_else(|| in_file(source, judged, notes))
}

fn title(source: &Source) -> String {
    source.path.file_name().map_or(String::new(), |name| path_text(name.as_ref()))
}

/// A slice through the place, with what is refused marked.
fn in_map(map: &Map<'_>, mark: &Mark, title: String, notes: Vec<String>) -> Result<Scene, Refusal> {
    let (model, hull) = match mark {
        Mark::Tree { model, hull, .. } => (*model, *hull),
        _ => (0, 0),
    };
    let corners = corners(map, mark);
    let asked = Asked {
        title,
        model,
        hull,
        height: corners.map(|(mins, maxs)| (mins[2] + maxs[2]) / 2.0),
        shown: Shown::Contents,
        trace: None,
        size: SIZE,
        notes,
    };
    let drawn = plan::draw(map, &asked, |scene: &mut Scene, view: &View| {
        if let Some((mins, maxs)) = corners {
            scene.outline(view.place(mins), view.place(maxs), RED);
        }
    })?;
    Ok(drawn.scene)
}

/// The box of what is marked; none for a node, where the squares that are refused say it.
fn corners(map: &Map<'_>, mark: &Mark) -> Option<([f32; 3], [f32; 3])> {
    match mark {
        Mark::Leaf(leaf) => {
            let leaf = map.leaves().get(*leaf).ok()?;
            Some((leaf.min.map(f32::from), leaf.max.map(f32::from)))
        }
        Mark::Model(model) => {
            let model = map.models().get(*model).ok()?;
            Some((model.min, model.max))
        }
        Mark::Face(face) => face_corners(map, *face),
        Mark::Tree { .. } => None,
    }
}

/// The box of those corners of a face that are there.
fn face_corners(map: &Map<'_>, face: usize) -> Option<([f32; 3], [f32; 3])> {
    let face = map.faces().get(face).ok()?;
    let entries = face.edge..face.edge.saturating_add(face.edge_count);
    let edges = entries.map_while(|entry| map.edge_list().get(entry).ok());
    let edges = edges.filter_map(|entry| map.edges().get(entry.edge).ok());
    let vertices = edges.flat_map(|edge| edge.vertices);
    let points = vertices.filter_map(|vertex| map.vertices().get(vertex).ok());
    points.map(|vertex| (vertex.point, vertex.point)).reduce(|(mins, maxs), (point, _)| {
        let least = |axis: usize| f32::min(mins[axis], point[axis]);
        let most = |axis: usize| f32::max(maxs[axis], point[axis]);
        (std::array::from_fn(least), std::array::from_fn(most))
    })
}

const WIDE: u32 = 560;
const LEFT: u32 = 140;
const ROW: u32 = 18;
const TOP: u32 = 52;

/// The plan of the file: where each section lies, and the place.
fn in_file(source: &Source, judged: &Judged<'_>, notes: Vec<String>) -> Scene {
    let rows = SECTIONS.len() as u32 + 1;
    let height = TOP + rows * ROW + 24 + 12 * (notes.len() as u32 + 4) + MARGIN;
    let mut scene = Scene::new(LEFT + WIDE + MARGIN, height);
    scene.text([MARGIN as f32, 8.0], cut(&title(source), 56), Letters::Large);
    let detail = format!("the sections in the file's {} bytes", source.bytes.len());
    scene.text([MARGIN as f32, 29.0], detail, Letters::Small);
    let place = judged.verdict.place.as_ref();
    let marked = place.map(|place| place.section.as_str());
    section_bar(&mut scene, source, 0, ("header", 0, HEADER), marked);
    let directory = Directory::read(&source.bytes);
    for (number, section) in SECTIONS.iter().enumerate() {
        let span = directory.span(number).map(|span| (span.offset, span.size));
        let (offset, size) = span.unwrap_or((0, 0));
        let bar = (section.name, offset.max(0) as usize, size.max(0) as usize);
        section_bar(&mut scene, source, number as u32 + 1, bar, marked);
    }
    if let Some(byte) = place.and_then(|place| place.byte) {
        let x = across(source, byte);
        let bottom = (TOP + rows * ROW) as f32;
        scene.line([x, TOP as f32 - 6.0], [x, bottom], RED, 1.0);
        scene.text([x.min(640.0), bottom + 4.0], format!("byte {byte}"), Letters::Small);
    }
    notes_below(&mut scene, &notes, TOP + rows * ROW + 24);
    scene
}

/// Where a byte of the file lies across the picture.
fn across(source: &Source, byte: usize) -> f32 {
    let share = byte as f32 / source.bytes.len().max(1) as f32;
    LEFT as f32 + share.min(1.0) * WIDE as f32
}

fn section_bar(
    scene: &mut Scene,
    source: &Source,
    row: u32,
    (name, offset, size): (&str, usize, usize),
    marked: Option<&str>,
) {
    let y = (TOP + row * ROW) as f32;
    let red = marked == Some(name);
    let color = if red { RED } else { BLACK };
    let at = [MARGIN as f32, y + 3.0];
    scene.items.push(Item::Text { at, text: name.to_string(), color, letters: Letters::Small });
    let (from, to) = (across(source, offset), across(source, offset.saturating_add(size)));
    let at = [LEFT as f32, y];
    let row = [WIDE as f32, ROW as f32 - 4.0];
    scene.items.push(Item::Box { at, size: row, fill: Some([0xf0, 0xf0, 0xf0]), edge: None });
    if size > 0 {
        let size = [(to - from).max(2.0), ROW as f32 - 4.0];
        let fill = Some(if red { RED } else { GREY });
        scene.items.push(Item::Box { at: [from, y], size, fill, edge: None });
    }
}

fn notes_below(scene: &mut Scene, notes: &[String], top: u32) {
    let letters = (LEFT + WIDE - MARGIN) as usize / super::font::NEXT;
    let mut y = top as f32;
    for note in notes {
        let mut left = note.as_str();
        while !left.is_empty() && y < scene.height as f32 {
            let end = left.char_indices().nth(letters).map_or(left.len(), |(at, _)| at);
            let end = match left[..end].rfind(' ') {
                Some(space) if end < left.len() && space > 0 => space + 1,
                _ => end,
            };
            scene.text([MARGIN as f32, y], &left[..end], Letters::Small);
            left = &left[end..];
            y += 12.0;
        }
    }
}

//! The drawing of a map: a slice of a hull, the plan of the leaves, or what is seen from one.

use super::colors::{self, BORDER, FROM_HERE, REFUSED, SEEN, UNSEEN};
use super::line::{self, Shot};
use super::scene::{Cells, Letters, Scene};
use super::sheet::{legend, Sheet, HEAD, MARGIN};
use super::view::{corners, View};
use super::{font, slice};
use crate::entity;
use crate::map::{self, leaf_count, Map};
use bsp29::{Contents, Entity, Hull, Refusal};
use std::collections::{BTreeMap, HashMap, HashSet};

/// What squares show.
#[derive(Copy, Clone, Debug, PartialEq, Eq)]
pub enum Shown {
    Contents,
    Leaves,
    SeenFrom(usize),
}

/// What is to be drawn.
pub struct Asked {
    pub title: String,
    pub model: usize,
    pub hull: usize,
    pub height: Option<f32>,
    pub shown: Shown,
    pub trace: Option<([f32; 3], [f32; 3])>,
    /// The pixels of the longer side.
    pub size: u32,
    pub notes: Vec<String>,
}

/// What was drawn.
pub struct Drawn {
    pub scene: Scene,
    pub view: View,
    pub height: f32,
    /// How many squares have each color of the legend.
    pub counts: Vec<(String, usize)>,
}

/// Draws a map; `over` draws over it.
pub fn draw(
    map: &Map<'_>,
    asked: &Asked,
    over: impl FnOnce(&mut Scene, &View),
) -> Result<Drawn, Refusal> {
    let hull = map.hull(asked.model, asked.hull)?;
    let side = side(map, &hull, asked)?;
    let view = View::of(corners(map, asked.model), asked.size / side, side, [MARGIN, HEAD]);
    let height = match asked.height {
        Some(height) => height,
        None => level(map, asked)?,
    };
    let shot = match asked.trace {
        Some((from, to)) => Some(line::shoot(map, &hull, from, to)?),
        None => None,
    };
    let (squares, labels) = squares(map, &hull, asked, &view, height)?;
    let cells = Cells {
        at: view.at,
        side: view.side,
        columns: view.columns,
        cells: squares,
        colors: colors::colors(),
    };
    let counts = counts(&cells);
    let sheet = sheet(asked, &view, height, &cells, shot.as_ref());
    let scene = sheet.around(&view, cells, |scene| {
        labels.into_iter().for_each(|(at, leaf)| scene.text(at, leaf, Letters::Small));
        over(scene, &view);
        shot.iter().for_each(|shot| shot.draw(scene, &view));
    });
    Ok(Drawn { scene, view, height, counts })
}

/// The most squares of the longer side where the nodes are no tree: a walk that goes in a circle enters
/// as many nodes as the table has before it is refused, at every square.
const FEWER: u32 = 200;

/// The side of a square in pixels.
fn side(map: &Map<'_>, hull: &Hull, asked: &Asked) -> Result<u32, Refusal> {
    let (table, root) = match asked.shown {
        Shown::Contents => map::root_of(hull),
        _ => map::root(map, asked.model, 0)?,
    };
    match map.tree_check(table, root) {
        Ok(_) => Ok(1),
        Err(_) => Ok(asked.size.div_ceil(FEWER)),
    }
}

/// The height that is drawn where none is asked for: that of the leaf that is seen from, of the line's
/// start, of where players start, or the middle.
fn level(map: &Map<'_>, asked: &Asked) -> Result<f32, Refusal> {
    if let Shown::SeenFrom(leaf) = asked.shown {
        let leaf = map.leaves().get(leaf)?;
        return Ok((f32::from(leaf.min[2]) + f32::from(leaf.max[2])) / 2.0);
    }
    if let Some((from, _)) = asked.trace.filter(|(from, _)| from[2].is_finite()) {
        return Ok(from[2]);
    }
    let (mins, maxs) = corners(map, asked.model);
    let within = |height: &f32| mins[2] <= *height && *height <= maxs[2];
    Ok(start(map).filter(within).unwrap_or((mins[2] + maxs[2]) / 2.0))
}

/// The height at which players start.
fn start(map: &Map<'_>) -> Option<f32> {
    let (entities, _) = entity::parse(map.entity_text().ok()?);
    let is_start = |entity: &&Entity<'_>| entity::class(entity).starts_with("info_player_");
    let mut starts = entities.iter().filter(is_start);
    starts.find_map(|entity| entity::point(entity, "origin")).map(|origin| origin[2])
}

/// A place in the picture and what is written there.
type Label = ([f32; 2], String);

/// The colors of the squares, and the numbers of leaves to write over them.
fn squares(
    map: &Map<'_>,
    hull: &Hull,
    asked: &Asked,
    view: &View,
    height: f32,
) -> Result<(Vec<u8>, Vec<Label>), Refusal> {
    if asked.shown == Shown::Contents {
        let squares = slice::contents(map, hull, view, height);
        let color = |square: slice::Square| square.map_or(REFUSED, colors::number);
        return Ok((squares.into_iter().map(color).collect(), Vec::new()));
    }
    let (_, root) = map::root(map, asked.model, 0)?;
    let leaves = slice::leaves(map, root, view, height);
    let mut color = painter(map, asked.shown)?;
    let number = |(at, leaf): (usize, &Result<usize, Refusal>)| match leaf {
        Ok(_) if is_border(&leaves, view.columns, at) => BORDER,
        Ok(leaf) => color(*leaf),
        Err(_) => REFUSED,
    };
    let squares = leaves.iter().enumerate().map(number).collect();
    Ok((squares, labels(&leaves, view)))
}

/// Gives a leaf its color.
fn painter<'a>(map: &'a Map<'a>, shown: Shown) -> Result<impl FnMut(usize) -> u8 + 'a, Refusal> {
    let seen: Option<(usize, HashSet<u32>)> = match shown {
        Shown::SeenFrom(leaf) => {
            let listed = map.visible_leaves(leaf, leaf_count(map))?;
            Some((leaf, listed.into_iter().collect()))
        }
        _ => None,
    };
    let mut known: HashMap<usize, u8> = HashMap::new();
    Ok(move |leaf| {
        let contents = || map.leaves().get(leaf).map(|leaf| leaf.contents);
        let color = || match (&seen, contents()) {
            (_, Err(_)) => REFUSED,
            (Some((here, _)), _) if *here == leaf => FROM_HERE,
            (_, Ok(Contents::Solid)) => colors::number(Contents::Solid),
            (Some((_, seen)), _) if seen.contains(&(leaf as u32)) => SEEN,
            (Some(_), _) => UNSEEN,
            (None, Ok(contents)) => colors::number(contents),
        };
        *known.entry(leaf).or_insert_with(color)
    })
}

/// Whether the square to the right or below is of another leaf.
fn is_border(leaves: &[Result<usize, Refusal>], columns: usize, at: usize) -> bool {
    let right = ((at + 1) % columns != 0).then_some(at + 1);
    [right, Some(at + columns)]
        .into_iter()
        .flatten()
        .filter_map(|other| leaves.get(other))
        .any(|leaf| *leaf != leaves[at])
}

/// Squares of one leaf side by side.
#[derive(Copy, Clone)]
struct Run {
    leaf: usize,
    length: usize,
    column: usize,
    row: usize,
}

/// The number of each leaf on a long run of its squares near its middle row, where there is room for it.
fn labels(leaves: &[Result<usize, Refusal>], view: &View) -> Vec<Label> {
    let runs = runs(leaves, view.columns);
    // of each leaf its squares, and their rows added up
    let mut sums: BTreeMap<usize, (usize, usize)> = BTreeMap::new();
    for run in &runs {
        let (squares, rows) = sums.entry(run.leaf).or_default();
        *squares += run.length;
        *rows += run.length * run.row;
    }
    let mut best: BTreeMap<usize, (isize, Run)> = BTreeMap::new();
    for run in runs {
        let (squares, rows) = sums[&run.leaf];
        let score = run.length as isize - run.row.abs_diff(rows / squares) as isize;
        match best.get(&run.leaf) {
            Some((other, _)) if *other >= score => {}
            _ => drop(best.insert(run.leaf, (score, run))),
        }
    }
    let high = |run: &Run| sums[&run.leaf].0 / run.length * view.side as usize;
    let roomy = best.into_values().map(|(_, run)| run).filter(|run| high(run) > font::HIGH);
    roomy.filter_map(|run| label(&run, view)).collect()
}

fn runs(leaves: &[Result<usize, Refusal>], columns: usize) -> Vec<Run> {
    let mut runs = Vec::new();
    for (row, line) in leaves.chunks(columns).enumerate() {
        let mut column = 0;
        for run in line.chunk_by(|a, b| a == b) {
            if let Ok(leaf) = run[0] {
                runs.push(Run { leaf, length: run.len(), column, row });
            }
            column += run.len();
        }
    }
    runs
}

fn label(&Run { leaf, length, column, row }: &Run, view: &View) -> Option<Label> {
    let text = leaf.to_string();
    let side = view.side as usize;
    let (room, needed) = (length * side, text.len() * font::NEXT);
    // the solid leaf is everywhere
    if leaf == 0 || room < needed + 4 {
        return None;
    }
    let x = view.at[0] as usize + column * side + (room - needed) / 2;
    let y = view.at[1] as usize + (row * side).saturating_sub(font::HIGH / 2);
    Some(([x as f32, y as f32], text))
}

/// How many squares have each color that the legend names.
fn counts(cells: &Cells) -> Vec<(String, usize)> {
    let mut counts = [0_usize; 256];
    cells.cells.iter().for_each(|cell| counts[usize::from(*cell)] += 1);
    let named = |number: usize| {
        let name = colors::name(number as u8)?;
        (counts[number] > 0).then_some((name, counts[number]))
    };
    (0..cells.colors.len()).filter_map(named).collect()
}

fn sheet(asked: &Asked, view: &View, height: f32, cells: &Cells, shot: Option<&Shot>) -> Sheet {
    let what = match asked.shown {
        Shown::Contents => format!("hull {} of model {}", asked.hull, asked.model),
        Shown::Leaves => format!("leaves of model {}", asked.model),
        Shown::SeenFrom(leaf) => format!("what is seen from leaf {leaf}"),
    };
    let detail = format!(
        "{what}, height {height}, x {:.0} to {:.0}, y {:.0} to {:.0}",
        view.x[0], view.x[1], view.y[0], view.y[1]
    );
    let mut legend = legend(cells);
    let mut notes = asked.notes.clone();
    if let Some(shot) = shot {
        legend.extend(shot.legend());
        notes.extend(shot.notes());
    }
    Sheet { title: asked.title.clone(), detail, legend, notes }
}

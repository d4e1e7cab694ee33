//! `at`: what is at a point.

use crate::args::At;
use crate::failure::Failure;
use crate::map::{self, leaf_count, Map, Source};
use crate::out::{self, Report};
use crate::text::path_text;
use bsp29::{Contents, Refusal};
use serde::Serialize;
use std::io::{self, Write};

#[derive(Serialize)]
struct There {
    file: String,
    point: [f32; 3],
    model: usize,
    hulls: Vec<InHull>,
    leaf: InLeaf,
}

#[derive(Serialize)]
struct InHull {
    hull: usize,
    contents: Option<String>,
    /// How many nodes were entered.
    visits: Option<u64>,
    #[serde(flatten)]
    refused: Refused,
}

#[derive(Serialize)]
struct InLeaf {
    number: Option<usize>,
    contents: Option<String>,
    /// The leaves that are seen from it; none where it has no row.
    sees: Option<Vec<u32>>,
    #[serde(flatten)]
    refused: Refused,
}

/// The refusal of a call, if it was refused.
#[derive(Default, Serialize)]
struct Refused {
    refused: Option<u32>,
    sentence: Option<String>,
}

impl Refused {
    fn with(refusal: Refusal) -> Refused {
        Refused { refused: Some(refusal.number()), sentence: Some(refusal.to_string()) }
    }
}

/// Says what is at the point; status 1 where a call was refused.
pub fn run(args: &At, json: bool) -> Result<u8, Failure> {
    let source = Source::read(&args.file)?;
    let map = source.map()?;
    let point: [f32; 3] = args
        .point
        .clone()
        .try_into()
        .map_err(|_| Failure::Usage("a point is three numbers".to_string()))?;
    let model = args.model;
    map.hull(model, 0).map_err(|refusal| Failure::refused(&source.path, "the model", refusal))?;
    let there = There {
        file: path_text(&source.path),
        point,
        model,
        hulls: (0..3).map(|hull| in_hull(&map, model, hull, point)).collect(),
        leaf: in_leaf(&map, model, point),
    };
    out::print(&there, json)?;
    let refused = there.hulls.iter().any(|hull| hull.refused.refused.is_some());
    Ok(if refused || there.leaf.refused.refused.is_some() { crate::NO } else { crate::YES })
}

fn in_hull(map: &Map<'_>, model: usize, hull: usize, point: [f32; 3]) -> InHull {
    let answer: Result<(Contents, u64), Refusal> =
        map.hull(model, hull).and_then(|root| map.contents(&root, point));
    match answer {
        Ok((contents, visits)) => InHull {
            hull,
            contents: Some(contents.to_string()),
            visits: Some(visits),
            refused: Refused::default(),
        },
        Err(refusal) => {
            InHull { hull, contents: None, visits: None, refused: Refused::with(refusal) }
        }
    }
}

fn in_leaf(map: &Map<'_>, model: usize, point: [f32; 3]) -> InLeaf {
    let mut leaf = InLeaf { number: None, contents: None, sees: None, refused: Refused::default() };
    if let Err(refusal) = look(map, model, point, &mut leaf) {
        leaf.refused = Refused::with(refusal);
    }
    leaf
}

/// The leaf as far as the calls answer.
fn look(map: &Map<'_>, model: usize, point: [f32; 3], leaf: &mut InLeaf) -> Result<(), Refusal> {
    let (number, _) = map.find_leaf_from(map::root(map, model, 0)?.1, point)?;
    leaf.number = Some(number);
    let record = map.leaves().get(number)?;
    leaf.contents = Some(record.contents.to_string());
    if record.visibility.is_some() && number > 0 {
        leaf.sees = Some(map.visible_leaves(number, leaf_count(map))?);
    }
    Ok(())
}

impl Report for There {
    fn text(&self, out: &mut dyn Write) -> io::Result<()> {
        let [x, y, z] = self.point;
        writeln!(out, "point   {x} {y} {z}, model {}", self.model)?;
        for hull in &self.hulls {
            write!(out, "hull {}  ", hull.hull)?;
            match (&hull.contents, hull.visits) {
                (Some(contents), Some(visits)) => writeln!(out, "{contents}, {visits} visits")?,
                _ => refused(out, &hull.refused)?,
            }
        }
        match (self.leaf.number, &self.leaf.contents) {
            (Some(number), Some(contents)) => writeln!(out, "leaf    {number}, {contents}")?,
            (Some(number), None) => writeln!(out, "leaf    {number}")?,
            _ => write!(out, "leaf    ")?,
        }
        match &self.leaf.sees {
            Some(leaves) => sees(out, leaves),
            None if self.leaf.refused.refused.is_some() => refused(out, &self.leaf.refused),
            None => writeln!(out, "sees    nothing: it has no row"),
        }
    }
}

fn sees(out: &mut dyn Write, leaves: &[u32]) -> io::Result<()> {
    let numbers: Vec<String> = leaves.iter().map(u32::to_string).collect();
    writeln!(out, "sees    {} leaves: {}", leaves.len(), numbers.join(" "))
}

fn refused(out: &mut dyn Write, refused: &Refused) -> io::Result<()> {
    let sentence = refused.sentence.as_deref().unwrap_or("");
    writeln!(out, "refused {}, {sentence}", refused.refused.unwrap_or(0))
}

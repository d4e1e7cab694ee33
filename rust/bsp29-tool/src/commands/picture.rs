//! `picture`: a slice of a hull, or the plan of the leaves, as SVG or PNG.

use crate::args::Picture;
use crate::failure::Failure;
use crate::file;
use crate::map::Source;
use crate::out::{self, Report};
use crate::picture::plan::{self, Asked, Drawn, Shown};
use crate::picture::{self, Format};
use crate::text::path_text;
use serde::ser::SerializeMap;
use serde::{Serialize, Serializer};
use std::io::{self, Write};

#[derive(Serialize)]
struct Written {
    file: String,
    picture: String,
    format: &'static str,
    width: u32,
    height: u32,
    model: usize,
    hull: u8,
    /// The height of the slice.
    z: f32,
    /// West and east, south and north.
    x: [f32; 2],
    y: [f32; 2],
    units_a_square: f32,
    /// How many squares have each color, by the names of the legend.
    squares: Squares,
}

struct Squares(Vec<(String, usize)>);

impl Serialize for Squares {
    fn serialize<S: Serializer>(&self, serializer: S) -> Result<S::Ok, S::Error> {
        let mut map = serializer.serialize_map(Some(self.0.len()))?;
        for (name, count) in &self.0 {
            map.serialize_entry(name, count)?;
        }
        map.end()
    }
}

/// Draws the picture and writes it.
pub fn run(args: &Picture, json: bool) -> Result<u8, Failure> {
    let format = Format::of(&args.output)
        .ok_or_else(|| Failure::Usage("the picture's name must end in .svg or .png".to_string()))?;
    if file::same(&args.file, &args.output) {
        return Err(Failure::Usage("the picture would take the map's place".to_string()));
    }
    let source = Source::read(&args.file)?;
    let map = source.map()?;
    let drawn = plan::draw(&map, &asked(args), |_, _| ())
        .map_err(|refusal| Failure::refused(&source.path, "the picture", refusal))?;
    picture::write(&drawn.scene, format, &args.output)?;
    out::print(&written(args, format, &drawn), json)?;
    Ok(crate::YES)
}

fn asked(args: &Picture) -> Asked {
    let shown = match (args.see, args.leaves) {
        (Some(leaf), _) => Shown::SeenFrom(leaf),
        (None, true) => Shown::Leaves,
        (None, false) => Shown::Contents,
    };
    let trace = match args.trace.as_deref() {
        Some([from, to]) => Some((from.0, to.0)),
        _ => None,
    };
    let name = args.file.file_name().unwrap_or_default();
    Asked {
        title: path_text(name.as_ref()),
        model: args.hull.model,
        hull: args.hull.hull.into(),
        height: args.height,
        shown,
        trace,
        size: args.size,
        notes: Vec::new(),
    }
}

fn written(args: &Picture, format: Format, drawn: &Drawn) -> Written {
    Written {
        file: path_text(&args.file),
        picture: path_text(&args.output),
        format: format.name(),
        width: drawn.scene.width,
        height: drawn.scene.height,
        model: args.hull.model,
        hull: args.hull.hull,
        z: drawn.height,
        x: drawn.view.x,
        y: drawn.view.y,
        units_a_square: drawn.view.unit,
        squares: Squares(drawn.counts.clone()),
    }
}

impl Report for Written {
    fn text(&self, out: &mut dyn Write) -> io::Result<()> {
        let Written { picture, width, height, z, .. } = self;
        write!(out, "{picture}: {width} x {height}, height {z}")?;
        for (name, count) in &self.squares.0 {
            write!(out, ", {name} {count}")?;
        }
        writeln!(out)
    }
}

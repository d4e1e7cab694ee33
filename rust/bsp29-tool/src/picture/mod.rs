//! Pictures: a slice of a hull, the plan of the leaves, a line and what it meets, or the place at which
//! a map was refused; as SVG or PNG.

mod colors;
mod fault;
mod font;
mod line;
pub mod page;
pub mod plan;
mod raster;
mod scene;
mod sheet;
mod slice;
mod svg;
mod view;

use crate::failure::Failure;
use crate::file;
use crate::map::Source;
use crate::verdict::Judged;
use scene::Scene;
use std::path::Path;

/// How a picture is written.
#[derive(Copy, Clone, Debug, PartialEq, Eq)]
pub enum Format {
    Svg,
    Png,
}

impl Format {
    /// The format that a name asks for.
    pub fn of(path: &Path) -> Option<Format> {
        let end = path.extension()?.to_str()?.to_ascii_lowercase();
        match end.as_str() {
            "svg" => Some(Format::Svg),
            "png" => Some(Format::Png),
            _ => None,
        }
    }

    pub fn name(self) -> &'static str {
        match self {
            Format::Svg => "svg",
            Format::Png => "png",
        }
    }
}

/// Writes a picture.
pub fn write(scene: &Scene, format: Format, path: &Path) -> Result<(), Failure> {
    let bytes = match format {
        Format::Svg => svg::svg(scene).into_bytes(),
        Format::Png => raster::png(scene).map_err(|error| Failure::file(path, error))?,
    };
    file::write(path, &bytes)
}

/// Draws and writes the picture of a map that does not pass.
pub fn of_fault(source: &Source, judged: &Judged<'_>, path: &Path) -> Result<(), Failure> {
    write(&fault::scene(source, judged), Format::Png, path)
}

//! `records`: the records of a section, as they stand in the file.

use crate::args::Records;
use crate::failure::Failure;
use crate::layout::{Directory, Fields, SECTIONS};
use crate::map::{Map, Source};
use crate::out::{self, Report};
use crate::text::path_text;
use bsp29::Refusal;
use serde::{Serialize, Serializer};
use std::io::{self, Write};
use std::ops::Range;

#[derive(Serialize)]
struct Listed<'a> {
    file: String,
    section: &'static str,
    /// How many the section says it has.
    count: usize,
    records: Rows<'a>,
    /// What loading makes of the one record that was asked for; none where the map does not load.
    loaded: Option<String>,
}

/// The records that were asked for, as far as they lie in the file. Each is read when it is printed:
/// a section may have very many.
struct Rows<'a> {
    directory: Directory,
    bytes: &'a [u8],
    section: usize,
    asked: Range<usize>,
}

#[derive(Serialize)]
struct Row {
    index: usize,
    byte: usize,
    fields: Fields,
}

impl Rows<'_> {
    fn iter(&self) -> impl Iterator<Item = Row> + '_ {
        self.asked.clone().map_while(|index| {
            let byte = self.directory.position(self.section, index)?;
            let fields = self.directory.record(self.bytes, self.section, index)?;
            Some(Row { index, byte, fields })
        })
    }
}

impl Serialize for Rows<'_> {
    fn serialize<S: Serializer>(&self, serializer: S) -> Result<S::Ok, S::Error> {
        serializer.collect_seq(self.iter())
    }
}

/// Lists the records; status 1 where not all that the section says are in the file.
pub fn run(args: &Records, json: bool) -> Result<u8, Failure> {
    let source = Source::read(&args.file)?;
    let directory = Directory::read(&source.bytes);
    let section = args.section as usize;
    let count = directory.count(section);
    let asked = match args.number {
        Some(number) if number >= count => {
            let refusal = Refusal::NoSuchRecord;
            return Err(Failure::refused(&source.path, "the record", refusal));
        }
        Some(number) => number..number + 1,
        None => 0..count,
    };
    let last = asked.end.checked_sub(1);
    let whole = last.map_or(true, |last| directory.record(&source.bytes, section, last).is_some());
    let listed = Listed {
        file: path_text(&source.path),
        section: SECTIONS[section].name,
        count,
        records: Rows { directory, bytes: &source.bytes, section, asked },
        loaded: args.number.and_then(|number| loaded(&source.bytes, section, number)),
    };
    out::print(&listed, json)?;
    Ok(if whole { crate::YES } else { crate::NO })
}

/// The record as the library gives it, in Rust's words: with the names of contents, the sides of
/// edges, the extents of faces and the leaves of models.
fn loaded(bytes: &[u8], section: usize, index: usize) -> Option<String> {
    let map = Map::load(bytes).ok()?;
    let record = match section {
        1 => map.planes().get(index).map(|record| format!("{record:?}")),
        3 => map.vertices().get(index).map(|record| format!("{record:?}")),
        5 => map.render_nodes().get(index).map(|record| format!("{record:?}")),
        6 => map.texture_infos().get(index).map(|record| format!("{record:?}")),
        7 => map.faces().get(index).map(|record| format!("{record:?}")),
        9 => map.clip_nodes().get(index).map(|record| format!("{record:?}")),
        10 => map.leaves().get(index).map(|record| format!("{record:?}")),
        11 => map.face_list().get(index).map(|record| format!("{record:?}")),
        12 => map.edges().get(index).map(|record| format!("{record:?}")),
        13 => map.edge_list().get(index).map(|record| format!("{record:?}")),
        _ => map.models().get(index).map(|record| format!("{record:?}")),
    };
    record.ok()
}

impl Report for Listed<'_> {
    fn text(&self, out: &mut dyn Write) -> io::Result<()> {
        let mut shown = 0;
        for row in self.records.iter() {
            writeln!(out, "{} {} at {}: {}", self.section, row.index, row.byte, row.fields)?;
            shown += 1;
        }
        match &self.loaded {
            Some(loaded) => writeln!(out, "loaded: {loaded}"),
            None => writeln!(out, "{shown} of {} {}", self.count, self.section),
        }
    }
}

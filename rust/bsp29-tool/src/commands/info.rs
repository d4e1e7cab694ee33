//! `info`: what a file holds.

use crate::args::OneFile;
use crate::failure::Failure;
use crate::layout::{int, Directory, SECTIONS, TEXTURES};
use crate::map::Source;
use crate::out::{self, Report};
use crate::text::path_text;
use crate::verdict::{self, Verdict};
use serde::Serialize;
use std::io::{self, Write};

#[derive(Serialize)]
struct Info {
    file: String,
    bytes: usize,
    /// None where the file is shorter than that.
    version: Option<i32>,
    sections: Vec<SectionInfo>,
    textures: Option<i32>,
    #[serde(flatten)]
    verdict: Verdict,
}

#[derive(Serialize)]
struct SectionInfo {
    name: &'static str,
    offset: Option<i32>,
    bytes: Option<i32>,
    /// Of entities, textures, visibility and lightmaps none: they are bytes.
    records: Option<usize>,
    limit: Option<usize>,
    /// Records, or bytes, by the limit, in hundredths.
    used: Option<f32>,
}

/// Says what the file holds; the status is that of its verdict.
pub fn run(args: &OneFile, json: bool) -> Result<u8, Failure> {
    let source = Source::read(&args.file)?;
    let directory = Directory::read(&source.bytes);
    let verdict = verdict::judge(&source.bytes).verdict;
    let passes = verdict.passes();
    let info = Info {
        file: path_text(&source.path),
        bytes: source.bytes.len(),
        version: directory.version,
        sections: (0..SECTIONS.len()).map(|number| section(&directory, number)).collect(),
        textures: directory.position(TEXTURES, 0).and_then(|at| int(&source.bytes, at)),
        verdict,
    };
    out::print(&info, json)?;
    Ok(if passes { crate::YES } else { crate::NO })
}

fn section(directory: &Directory, number: usize) -> SectionInfo {
    let section = &SECTIONS[number];
    let span = directory.span(number);
    let count = directory.count(number);
    SectionInfo {
        name: section.name,
        offset: span.map(|span| span.offset),
        bytes: span.map(|span| span.size),
        records: (!section.fields.is_empty()).then_some(count),
        limit: section.limit,
        used: section.limit.map(|limit| (count as f32 / limit as f32 * 1000.0).round() / 10.0),
    }
}

/// A number, or a dash where there is none.
fn or_dash<T: ToString>(number: Option<T>) -> String {
    number.map_or("-".to_string(), |number| number.to_string())
}

impl Report for Info {
    fn text(&self, out: &mut dyn Write) -> io::Result<()> {
        writeln!(out, "file      {}", self.file)?;
        writeln!(out, "bytes     {}", self.bytes)?;
        writeln!(out, "version   {}", or_dash(self.version))?;
        writeln!(out, "textures  {}", or_dash(self.textures))?;
        write!(out, "verdict   {}", self.verdict.verdict.shown())?;
        match self.verdict.reason() {
            Some(reason) => writeln!(out, ", {reason}")?,
            None => writeln!(out)?,
        }
        writeln!(out)?;
        writeln!(out, "section            offset      bytes    records      limit   used")?;
        for section in &self.sections {
            writeln!(
                out,
                "{:<14} {:>10} {:>10} {:>10} {:>10} {:>6}",
                section.name,
                or_dash(section.offset),
                or_dash(section.bytes),
                or_dash(section.records),
                or_dash(section.limit),
                section.used.map_or("-".to_string(), |used| format!("{used} %")),
            )?;
        }
        Ok(())
    }
}

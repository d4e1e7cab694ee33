//! `why`: the refusal of a map, its place and the bytes there, decoded.

use crate::args::OneFile;
use crate::failure::Failure;
use crate::layout::{Directory, Fields, ENTRY, SECTIONS, VERSION};
use crate::map::Source;
use crate::out::{self, Report};
use crate::place::Place;
use crate::text::path_text;
use crate::verdict::{judge, Verdict};
use serde::Serialize;
use std::io::{self, Write};

/// How many bytes are shown in a line, and how many lines before and after the place.
const LINE: usize = 16;
const LINES: usize = 2;
/// The most bytes of a place that are shown.
const MOST: usize = 128;

#[derive(Serialize)]
struct Why {
    file: String,
    #[serde(flatten)]
    verdict: Verdict,
    /// The nodes from the root on to the place, where it is in a tree.
    way: Vec<usize>,
    /// The record at the place, as the file has it.
    record: Option<Decoded>,
    /// The bytes around it.
    around: Option<Around>,
    /// The bytes of the row that is not whole, and those around it.
    row: Option<Around>,
}

#[derive(Serialize)]
struct Decoded {
    byte: usize,
    size: usize,
    fields: Fields,
}

#[derive(Serialize)]
struct Around {
    /// The position of the first of the bytes.
    byte: usize,
    /// Two digits a byte.
    hex: String,
    #[serde(skip)]
    bytes: Vec<u8>,
    #[serde(skip)]
    marked: (usize, usize),
}

/// Says why; the status is that of the verdict.
pub fn run(args: &OneFile, json: bool) -> Result<u8, Failure> {
    let source = Source::read(&args.file)?;
    let judged = judge(&source.bytes);
    let place = judged.verdict.place.as_ref();
    let record = place.and_then(|place| decoded(&source.bytes, place));
    let marked = place.and_then(|place| marked(place, record.as_ref()));
    let fault = judged.fault;
    let row = fault.as_ref().and_then(|fault| fault.row);
    let why = Why {
        file: path_text(&source.path),
        record,
        around: marked.and_then(|marked| around(&source.bytes, marked)),
        row: row.and_then(|row| around(&source.bytes, row)),
        way: fault.map_or(Vec::new(), |fault| fault.way),
        verdict: judged.verdict,
    };
    out::print(&why, json)?;
    Ok(if why.verdict.passes() { crate::YES } else { crate::NO })
}

/// The record at a place.
fn decoded(bytes: &[u8], place: &Place) -> Option<Decoded> {
    let (section, record) = (place.section_number()?, place.record?);
    let directory = Directory::read(bytes);
    let layout = SECTIONS.get(section).filter(|section| !section.fields.is_empty())?;
    let fields = directory.record(bytes, section, record)?;
    Some(Decoded { byte: directory.position(section, record)?, size: layout.record_size(), fields })
}

/// The bytes of a place: where they begin and how many they are.
fn marked(place: &Place, record: Option<&Decoded>) -> Option<(usize, usize)> {
    let byte = place.byte?;
    Some(match (record, place.section_number()) {
        (Some(record), _) => (record.byte, record.size),
        (None, Some(_)) => (byte, 1),
        // the version, or an entry of the directory
        (None, None) => (byte, if byte < VERSION { VERSION } else { ENTRY }),
    })
}

/// Some bytes and those around them, by whole lines. Of many the first ones are shown.
fn around(bytes: &[u8], (first, size): (usize, usize)) -> Option<Around> {
    // a place past the file's end is shown by the last bytes
    let first = first.min(bytes.len());
    let end = first.saturating_add(size);
    let from = (first / LINE).saturating_sub(LINES) * LINE;
    let to = (end.min(first + MOST).div_ceil(LINE) + LINES) * LINE;
    let shown = bytes.get(from..to.min(bytes.len()))?;
    Some(Around {
        byte: from,
        hex: shown.iter().map(|byte| format!("{byte:02x}")).collect(),
        bytes: shown.to_vec(),
        marked: (first, end),
    })
}

impl Report for Why {
    fn text(&self, out: &mut dyn Write) -> io::Result<()> {
        writeln!(out, "file     {}", self.file)?;
        write!(out, "verdict  {}", self.verdict.verdict.shown())?;
        if let (Some(number), Some(sentence)) = (self.verdict.number, &self.verdict.sentence) {
            write!(out, ", {number}: {sentence}")?;
        }
        writeln!(out)?;
        if self.verdict.passes() {
            return writeln!(out, "why      there is nothing against it");
        }
        match &self.verdict.place {
            Some(place) => self.place(out, place),
            None => writeln!(out, "place    not found"),
        }
    }
}

impl Why {
    fn place(&self, out: &mut dyn Write, place: &Place) -> io::Result<()> {
        writeln!(out, "place    {}", place.words())?;
        if let Some(what) = &place.what {
            writeln!(out, "what     {what}")?;
        }
        if !self.way.is_empty() {
            writeln!(out, "way      from the root by nodes {}", shortened(&self.way))?;
        }
        if let Some(record) = &self.record {
            writeln!(out, "\n{} {}, as the file has it", place.section, place.record.unwrap_or(0))?;
            for field in &record.fields.0 {
                let named = place.field.as_deref() == Some(field.name);
                let mark = if named { '>' } else { ' ' };
                writeln!(out, "{mark} {:>10}  {:<16} {field}", field.at, field.name)?;
            }
        }
        let shown = [("the place", &self.around), ("the row", &self.row)];
        for (what, around) in shown {
            if let Some(around) = around {
                writeln!(out, "\nthe bytes around it, those of {what} in brackets")?;
                around.text(out)?;
            }
        }
        Ok(())
    }
}

/// Numbers, of many the first and the last ones.
fn shortened(numbers: &[usize]) -> String {
    let all =
        |numbers: &[usize]| numbers.iter().map(usize::to_string).collect::<Vec<_>>().join(" ");
    match numbers.len() {
        0..=24 => all(numbers),
        length => {
            format!("{} .. {} ({length} in all)", all(&numbers[..8]), all(&numbers[length - 8..]))
        }
    }
}

impl Around {
    fn text(&self, out: &mut dyn Write) -> io::Result<()> {
        for (n, line) in self.bytes.chunks(LINE).enumerate() {
            let seen: String = line.iter().map(|byte| seen(*byte)).collect();
            writeln!(out, "{:<62}{seen}", self.line(self.byte + n * LINE, line))?;
        }
        Ok(())
    }

    /// A line: its position and its bytes, with a bracket where the marked ones begin and end.
    fn line(&self, at: usize, line: &[u8]) -> String {
        let between = |place: usize| match place {
            place if place == self.marked.0 => '[',
            place if place == self.marked.1 => ']',
            _ => ' ',
        };
        let mut text = format!("{at:>10} ");
        for (place, byte) in (at..).zip(line) {
            let before = match between(place) {
                // it stands at the end of the line before
                ']' if place == at => ' ',
                before => before,
            };
            text += &format!("{before}{byte:02x}");
        }
        text.push(if between(at + line.len()) == ']' { ']' } else { ' ' });
        text
    }
}

/// A byte as a character, where it is one of ASCII that is seen.
fn seen(byte: u8) -> char {
    match byte {
        0x20..=0x7e => char::from(byte),
        _ => '.',
    }
}

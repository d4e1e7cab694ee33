//! `diff`: two maps compared section by section.

use crate::args::Diff;
use crate::entity::parse;
use crate::failure::Failure;
use crate::layout::{Directory, Fields, Span, SECTIONS};
use crate::map::Source;
use crate::out::{self, Report};
use crate::text::{path_text, plain};
use crate::verdict::{judge, Verdict};
use serde::Serialize;
use std::collections::BTreeMap;
use std::io::{self, Write};

#[derive(Serialize)]
struct Differs {
    a: String,
    b: String,
    /// Whether the files are the same, byte for byte.
    same: bool,
    verdicts: [Verdict; 2],
    bytes: [usize; 2],
    version: [Option<i32>; 2],
    sections: Vec<SectionDiff>,
    /// The entities that one of them has alone, by their class and their pairs.
    entities_only_in_a: Vec<String>,
    entities_only_in_b: Vec<String>,
}

#[derive(Serialize)]
struct SectionDiff {
    name: &'static str,
    same: bool,
    /// Records, or bytes where the section has none.
    counts: [usize; 2],
    /// How many of those that both have differ, and the first of them.
    differ: usize,
    first: Option<First>,
}

#[derive(Serialize)]
struct First {
    index: usize,
    /// The record of each, where the section has records.
    a: Option<Fields>,
    b: Option<Fields>,
}

/// Compares two files; status 0 where they are the same.
pub fn run(args: &Diff, json: bool) -> Result<u8, Failure> {
    let (a, b) = (Source::read(&args.a)?, Source::read(&args.b)?);
    let directories = [Directory::read(&a.bytes), Directory::read(&b.bytes)];
    let section = |number| section(number, [&a.bytes, &b.bytes], &directories);
    let differs = Differs {
        a: path_text(&a.path),
        b: path_text(&b.path),
        same: a.bytes == b.bytes,
        verdicts: [judge(&a.bytes).verdict, judge(&b.bytes).verdict],
        bytes: [a.bytes.len(), b.bytes.len()],
        version: [directories[0].version, directories[1].version],
        sections: (0..SECTIONS.len()).map(section).collect(),
        entities_only_in_a: only(&a, &b),
        entities_only_in_b: only(&b, &a),
    };
    out::print(&differs, json)?;
    Ok(if differs.same { crate::YES } else { crate::NO })
}

fn section(number: usize, files: [&[u8]; 2], directories: &[Directory; 2]) -> SectionDiff {
    let layout = &SECTIONS[number];
    let size = layout.record_size();
    let bytes = [0, 1].map(|n| directories[n].bytes(files[n], number));
    let counts = bytes.map(|bytes| bytes.len() / size);
    let pairs = bytes[0].chunks_exact(size).zip(bytes[1].chunks_exact(size));
    let mut differing = pairs.enumerate().filter(|(_, (a, b))| a != b).map(|(index, _)| index);
    let first = differing.next();
    let sizes = [0, 1].map(|n| directories[n].span(number).map(|span: Span| span.size));
    let read = |n: usize, index| match layout.fields {
        [] => None,
        _ => directories[n].record(files[n], number, index),
    };
    SectionDiff {
        name: layout.name,
        same: bytes[0] == bytes[1] && sizes[0] == sizes[1],
        counts,
        differ: differing.count() + usize::from(first.is_some()),
        first: first.map(|index| First { index, a: read(0, index), b: read(1, index) }),
    }
}

/// The entities of a map that another has not, or not as often.
fn only(map: &Source, other: &Source) -> Vec<String> {
    let mut there: BTreeMap<String, usize> = BTreeMap::new();
    for entity in entities(other) {
        *there.entry(entity).or_default() += 1;
    }
    let new = |entity: &String| match there.get_mut(entity) {
        Some(left) if *left > 0 => {
            *left -= 1;
            false
        }
        _ => true,
    };
    entities(map).into_iter().filter(new).collect()
}

/// The entities of a map in a line each; none where it does not load.
fn entities(source: &Source) -> Vec<String> {
    let Ok(map) = source.map() else { return Vec::new() };
    let (entities, _) = parse(map.entity_text().unwrap_or(""));
    let pair = |(key, value): &(&str, &str)| format!("\"{}\" \"{}\"", plain(key), plain(value));
    let line = |pairs: &[(&str, &str)]| pairs.iter().map(pair).collect::<Vec<_>>().join(" ");
    entities.iter().map(|entity| line(entity.pairs())).collect()
}

impl Report for Differs {
    fn text(&self, out: &mut dyn Write) -> io::Result<()> {
        for (name, verdict) in [(&self.a, &self.verdicts[0]), (&self.b, &self.verdicts[1])] {
            let reason = verdict.reason().map_or(String::new(), |reason| format!(", {reason}"));
            writeln!(out, "{name}: {}{reason}", verdict.verdict.shown())?;
        }
        if self.same {
            return writeln!(out, "the files are the same");
        }
        writeln!(out, "{} bytes, and {} bytes", self.bytes[0], self.bytes[1])?;
        for section in self.sections.iter().filter(|section| !section.same) {
            section.text(out)?;
        }
        if self.sections.iter().all(|section| section.same) {
            writeln!(
                out,
                "every section is the same; they lie elsewhere or something else differs"
            )?;
        }
        for (which, entities) in
            [("first", &self.entities_only_in_a), ("second", &self.entities_only_in_b)]
        {
            for entity in entities {
                writeln!(out, "only in the {which}: {entity}")?;
            }
        }
        Ok(())
    }
}

impl SectionDiff {
    fn text(&self, out: &mut dyn Write) -> io::Result<()> {
        let [a, b] = self.counts;
        write!(out, "{}: {a} and {b}, {} differ", self.name, self.differ)?;
        let Some(first) = &self.first else { return writeln!(out) };
        writeln!(out, ", first {}", first.index)?;
        if let (Some(a), Some(b)) = (&first.a, &first.b) {
            writeln!(out, "  first:  {a}\n  second: {b}")?;
        }
        Ok(())
    }
}

//! `vis`: how much each leaf sees, and which leaves are never seen.

use crate::args::Vis;
use crate::failure::Failure;
use crate::layout::{Directory, VISIBILITY};
use crate::map::{leaf_count, Map, Source};
use crate::out::{self, Report};
use crate::rows;
use crate::text::path_text;
use bsp29::Refusal;
use serde::Serialize;
use std::collections::HashMap;
use std::io::{self, Write};

#[derive(Serialize)]
struct Seen {
    file: String,
    /// The leaves, and of them those that rows tell of: the ones of model 0, from leaf 1 on.
    leaves: usize,
    told_of: usize,
    bytes: usize,
    rows: Vec<Row>,
    /// Leaves that rows tell of and that no leaf sees.
    never_seen: Vec<usize>,
    without_row: usize,
}

#[derive(Clone, Serialize)]
struct Row {
    leaf: usize,
    contents: String,
    /// Where the row begins in the visibility data, and its bytes.
    offset: Option<usize>,
    bytes: Option<usize>,
    /// How many leaves it sees, and, if one leaf was asked for, which.
    seen: Option<usize>,
    sees: Option<Vec<u32>>,
    refused: Option<u32>,
}

/// Says of each leaf, or of one, what it sees; status 1 where a row is refused.
pub fn run(args: &Vis, json: bool) -> Result<u8, Failure> {
    let source = Source::read(&args.file)?;
    let map = source.map()?;
    let failed = |refusal| Failure::refused(&source.path, "the leaf", refusal);
    let mut rows = Rows::new(&map);
    let seen = match args.leaf {
        Some(leaf) => vec![rows.one(leaf, true).map_err(failed)?],
        None => (0..map.leaves().len())
            .map(|leaf| rows.one(leaf, false))
            .collect::<Result<_, _>>()
            .map_err(failed)?,
    };
    let seen = rows.report(path_text(&source.path), seen, args.leaf.is_none());
    out::print(&seen, json)?;
    let refused = seen.rows.iter().any(|row| row.refused.is_some());
    Ok(if refused { crate::NO } else { crate::YES })
}

/// The rows of a map. Leaves may share one, which is read once.
struct Rows<'a> {
    map: &'a Map<'a>,
    data: &'a [u8],
    count: usize,
    /// Which leaves were seen from any leaf.
    seen: Vec<bool>,
    known: HashMap<usize, Result<Read, Refusal>>,
}

/// A row that was read: how many leaves it lists, and its bytes.
#[derive(Copy, Clone)]
struct Read {
    seen: usize,
    bytes: usize,
}

impl<'a> Rows<'a> {
    fn new(map: &'a Map<'a>) -> Rows<'a> {
        let count = leaf_count(map);
        let data = Directory::read(map.file()).bytes(map.file(), VISIBILITY);
        Rows { map, data, count, seen: vec![false; count], known: HashMap::new() }
    }

    /// The row of a leaf, with the leaves that it lists if they are asked for.
    fn one(&mut self, leaf: usize, listed: bool) -> Result<Row, Refusal> {
        let record = self.map.leaves().get(leaf)?;
        let offset = record.visibility.filter(|_| leaf > 0);
        let read = offset.map(|offset| match self.known.get(&offset) {
            Some(read) => *read,
            None => self.read(leaf, offset),
        });
        let sees = match listed && matches!(read, Some(Ok(_))) {
            true => Some(self.map.visible_leaves(leaf, self.count)?),
            false => None,
        };
        let (read, refused) = match read {
            Some(Ok(read)) => (Some(read), None),
            Some(Err(refusal)) => (None, Some(refusal.number())),
            None => (None, None),
        };
        Ok(Row {
            leaf,
            contents: record.contents.to_string(),
            offset,
            bytes: read.map(|read| read.bytes),
            seen: read.map(|read| read.seen),
            sees,
            refused,
        })
    }

    fn read(&mut self, leaf: usize, offset: usize) -> Result<Read, Refusal> {
        let read = self.map.visible_leaves(leaf, self.count).map(|listed| {
            for leaf in &listed {
                if let Some(seen) = self.seen.get_mut(*leaf as usize) {
                    *seen = true;
                }
            }
            let bytes = rows::length(self.data, offset, self.count);
            Read { seen: listed.len(), bytes }
        });
        self.known.insert(offset, read);
        read
    }

    fn report(&self, file: String, rows: Vec<Row>, all: bool) -> Seen {
        let never = (1..self.count).filter(|leaf| all && !self.seen[*leaf]).collect();
        Seen {
            file,
            leaves: self.map.leaves().len(),
            told_of: self.count.saturating_sub(1),
            bytes: self.data.len(),
            without_row: rows.iter().filter(|row| row.offset.is_none() && row.leaf > 0).count(),
            never_seen: never,
            rows,
        }
    }
}

impl Report for Seen {
    fn text(&self, out: &mut dyn Write) -> io::Result<()> {
        for row in &self.rows {
            row.text(out)?;
        }
        writeln!(
            out,
            "{} leaves, {} of them told of in {} bytes of rows; {} without a row",
            self.leaves, self.told_of, self.bytes, self.without_row
        )?;
        if self.rows.len() != self.leaves {
            return Ok(());
        }
        match self.never_seen.as_slice() {
            [] => writeln!(out, "every leaf that is told of is seen from one"),
            never => {
                let leaves: Vec<String> = never.iter().map(usize::to_string).collect();
                writeln!(out, "never seen: {}: {}", never.len(), leaves.join(" "))
            }
        }
    }
}

impl Row {
    fn text(&self, out: &mut dyn Write) -> io::Result<()> {
        write!(out, "leaf {}, {}: ", self.leaf, self.contents)?;
        match (self.offset, self.bytes, self.seen, self.refused) {
            (Some(offset), Some(bytes), Some(seen), _) => {
                write!(out, "row at {offset}, {bytes} bytes, sees {seen}")?;
            }
            (Some(offset), _, _, Some(number)) => {
                write!(out, "row at {offset}, refused {number}")?;
            }
            _ => write!(out, "no row")?,
        }
        if let Some(sees) = &self.sees {
            let leaves: Vec<String> = sees.iter().map(u32::to_string).collect();
            write!(out, ": {}", leaves.join(" "))?;
        }
        writeln!(out)
    }
}

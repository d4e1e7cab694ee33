//! `tree`: the nodes below each root, their height and the deepest walk.

use crate::args::OneFile;
use crate::failure::Failure;
use crate::map::{self, table_name, Map, Source};
use crate::out::{self, Report};
use crate::text::path_text;
use crate::trees::{nodes, walk};
use bsp29::{NodeTable, Refusal};
use serde::Serialize;
use std::collections::HashMap;
use std::io::{self, Write};

#[derive(Serialize)]
struct Trees {
    file: String,
    render_nodes: usize,
    clip_nodes: usize,
    roots: Vec<Root>,
}

#[derive(Serialize)]
struct Root {
    /// None for render node 0, from which leaves are looked up.
    model: Option<usize>,
    hull: Option<usize>,
    table: &'static str,
    root: usize,
    #[serde(flatten)]
    below: Below,
}

/// What is below a root: a tree, or why it is none.
#[derive(Clone, Default, Serialize)]
struct Below {
    nodes: Option<usize>,
    height: Option<usize>,
    /// The nodes of the longest way down, and what it ends at.
    deepest: Option<Vec<usize>>,
    end: Option<String>,
    refused: Option<u32>,
    sentence: Option<String>,
    what: Option<String>,
}

/// Says of each root what is below it; status 1 where one has no tree.
pub fn run(args: &OneFile, json: bool) -> Result<u8, Failure> {
    let source = Source::read(&args.file)?;
    let map = source.map()?;
    let roots = roots(&map).map_err(|refusal| Failure::refused(&source.path, "a hull", refusal))?;
    let trees = Trees {
        file: path_text(&source.path),
        render_nodes: map.render_nodes().len(),
        clip_nodes: map.clip_nodes().len(),
        roots,
    };
    out::print(&trees, json)?;
    let refused = trees.roots.iter().any(|root| root.below.refused.is_some());
    Ok(if refused { crate::NO } else { crate::YES })
}

/// The roots that acceptance looks at. Models may share one, which is walked once.
fn roots(map: &Map<'_>) -> Result<Vec<Root>, Refusal> {
    let mut known = HashMap::new();
    let mut roots = Vec::new();
    let mut root = |of: Option<(usize, usize)>, table, root| {
        let below = known.entry((table, root)).or_insert_with(|| below(map, table, root));
        let (model, hull) = of.unzip();
        roots.push(Root { model, hull, table: table_name(table), root, below: below.clone() });
    };
    for model in 0..map.models().len() {
        for index in 0..3 {
            let (table, node) = map::root(map, model, index)?;
            root(Some((model, index)), table, node);
        }
    }
    root(None, NodeTable::Render, 0);
    Ok(roots)
}

/// The library's own count and height, and the walk that has that height.
fn below(map: &Map<'_>, table: NodeTable, root: usize) -> Below {
    let walked = walk(map, table, root);
    match (map::tree_size(map, (table, root)), walked) {
        (Ok((nodes, height)), walked) => {
            let tree = walked.ok();
            Below {
                nodes: Some(nodes),
                height: Some(height),
                deepest: tree.as_ref().map(|tree| tree.deepest.clone()),
                end: tree.map(|tree| tree.end.to_string()),
                ..Below::default()
            }
        }
        (Err(refusal), walked) => Below {
            refused: Some(refusal.number()),
            sentence: Some(refusal.to_string()),
            what: walked.err().map(|bad| bad.what),
            ..Below::default()
        },
    }
}

impl Report for Trees {
    fn text(&self, out: &mut dyn Write) -> io::Result<()> {
        writeln!(out, "{} render nodes, {} clip nodes", self.render_nodes, self.clip_nodes)?;
        self.roots.iter().try_for_each(|root| root.text(out))
    }
}

impl Root {
    fn text(&self, out: &mut dyn Write) -> io::Result<()> {
        match (self.model, self.hull) {
            (Some(model), Some(hull)) => write!(out, "model {model} hull {hull}")?,
            _ => write!(out, "leaf lookup")?,
        }
        write!(out, ", {} node {}: ", self.table, self.root)?;
        let below = &self.below;
        if let (Some(count), Some(height)) = (below.nodes, below.height) {
            write!(out, "{}, height {height}", nodes(count))?;
        }
        if let (Some(deepest), Some(end)) = (&below.deepest, &below.end) {
            let way: Vec<String> = deepest.iter().map(usize::to_string).collect();
            write!(out, ", deepest {} to {end}", way.join(" "))?;
        }
        if let (Some(number), Some(sentence)) = (below.refused, &below.sentence) {
            write!(out, "refused {number}, {sentence}")?;
        }
        if let Some(what) = &below.what {
            write!(out, "; {what}")?;
        }
        writeln!(out)
    }
}

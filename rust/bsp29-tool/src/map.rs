//! A file and its map, as the commands take them.

use crate::failure::Failure;
use crate::file;
use bsp29::{Hull, LineTrace, NodeTable, Refusal, Trace};
use std::path::{Path, PathBuf};

/// A map over the bytes of its file.
pub type Map<'a> = bsp29::Map<'a>;

/// The bytes of a file and where they came from.
pub struct Source {
    pub path: PathBuf,
    pub bytes: Vec<u8>,
}

impl Source {
    /// Reads a file whole.
    pub fn read(path: &Path) -> Result<Source, Failure> {
        Ok(Source { path: path.to_path_buf(), bytes: file::read(path)? })
    }

    /// The map of the file, where it loads.
    pub fn map(&self) -> Result<Map<'_>, Failure> {
        Map::load(&self.bytes).map_err(|refusal| Failure::refused(&self.path, "loading", refusal))
    }
}

/// Where a hull of a model begins: its table and its root there.
pub fn root(map: &Map<'_>, model: usize, hull: usize) -> Result<(NodeTable, usize), Refusal> {
    map.hull(model, hull).map(|hull| root_of(&hull))
}

/// The table of a hull and its root there.
pub fn root_of(hull: &Hull) -> (NodeTable, usize) {
    (hull.table(), hull.root())
}

/// What both traces say of a line in a hull. They are asked only where the nodes below the hull's root
/// are a tree: over nodes that are reached by many ways a trace ends, too, but each node on its way may
/// double its time.
pub fn traces(
    map: &Map<'_>,
    hull: &Hull,
    from: [f32; 3],
    to: [f32; 3],
) -> Result<(LineTrace, Trace), Refusal> {
    let (table, root) = root_of(hull);
    map.tree_check(table, root)?;
    Ok((map.trace_line(hull, from, to)?, map.trace(hull, from, to)?))
}

/// How many nodes the tree below a root has, and its height.
pub fn tree_size(
    map: &Map<'_>,
    (table, root): (NodeTable, usize),
) -> Result<(usize, usize), Refusal> {
    let checked = map.hull_check(&Hull::new(table, root))?;
    Ok((checked.nodes(), checked.height()))
}

/// The name of a node table.
pub fn table_name(table: NodeTable) -> &'static str {
    match table {
        NodeTable::Render => "render",
        NodeTable::Clip => "clip",
        NodeTable::Box => "box",
    }
}

/// How many leaves can be seen at all: those of model 0, and leaf 0, which is never listed.
pub fn leaf_count(map: &Map<'_>) -> usize {
    let world = map.models().get(0).map_or(0, |model| model.leaf_count);
    world.saturating_add(1).min(map.leaves().len())
}

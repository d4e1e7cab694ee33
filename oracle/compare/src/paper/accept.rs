//! Note 4 of document 02: may a map go on the rota?

use super::*;
use super::{tree, vis};

/// A reference into a table.
fn inside(map: &Map, index: u64, section: usize) -> Answer<()> {
    if index < map.count(section) {
        Ok(())
    } else {
        Err(35)
    }
}

/// A range of a table: start plus count at most its size.
fn range(map: &Map, start: u64, count: u64, section: usize) -> Answer<()> {
    if start + count <= map.count(section) {
        Ok(())
    } else {
        Err(35)
    }
}

/// Plane, texture info, edge-list range, each edge with its two vertices.
fn face(map: &Map, index: u64) -> Answer<()> {
    let face = map.face(index)?;
    inside(map, face.plane, PLANES)?;
    inside(map, face.texinfo, TEXINFOS)?;
    range(map, face.edge, face.edges, EDGELIST)?;
    for at in face.edge..face.edge + face.edges {
        let entry = map.edge_entry(at)?;
        inside(map, entry.index, EDGES)?;
        for vertex in map.edge(entry.index)? {
            inside(map, vertex as u64, VERTICES)?;
        }
    }
    Ok(())
}

/// Every check but the trees.
fn references(map: &Map) -> Answer<()> {
    for index in 0..map.count(FACES) {
        face(map, index)?;
    }
    for index in 0..map.count(LEAVES) {
        let leaf = map.leaf(index)?;
        range(map, leaf.facelist, leaf.faces, FACELIST)?;
    }
    for index in 0..map.count(MODELS) {
        let model = map.by_index(MODELS, index, records::model)?;
        range(map, model.face, model.faces, FACES)?;
    }
    // the last leaf of a model is the first one plus the count
    let mut first = 0;
    for index in 0..map.count(MODELS) {
        let model = map.by_index(MODELS, index, records::model)?;
        inside(map, first + model.leaves, LEAVES)?;
        first += model.leaves;
    }
    for index in 1..map.count(LEAVES) {
        match vis::get_pvs(map, index, map.count(LEAVES)) {
            Err(33) => return Err(35),
            row => row?,
        };
    }
    Ok(())
}

/// The roots of hulls 0 to 2 of every model, then render node 0.
fn trees(map: &Map, marks: &mut [u8]) -> Answer<()> {
    for index in 0..map.count(MODELS) {
        let model = map.by_index(MODELS, index, records::model)?;
        for (table, root) in [0, 1, 1].into_iter().zip(model.roots) {
            tree::check(map, table, root, marks)?;
        }
    }
    tree::check(map, 0, 0, marks)?;
    Ok(())
}

/// 22 first of all, the marks untouched; else the first failure, and one mark for each node of the
/// larger node table is zero afterwards.
pub fn accept(map: &Map, marks: &mut [u8]) -> Answer<()> {
    let nodes = map.count(RENDER_NODES).max(map.count(CLIP_NODES));
    if (marks.len() as u64) < nodes {
        return Err(22);
    }
    marks[..nodes as usize].fill(0);
    references(map)?;
    trees(map, marks)
}

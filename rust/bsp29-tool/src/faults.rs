//! Where acceptance refused. The library answers the number of the first check that fails; here the
//! checks are made once more, in the same order, over the records that it gives, to find the record.
//! A place is told only where its number is the library's.

use crate::layout::{
    Directory, CLIP_NODES, EDGES, EDGE_LIST_SECTION, FACES, LEAVES, MODELS, RENDER_NODES, SECTIONS,
    VISIBILITY,
};
use crate::map::{self, Map};
use crate::place::{Mark, Place};
use crate::rows;
use crate::trees::{self, Bad};
use bsp29::{Face, NodeTable, Refusal};
use std::collections::HashSet;

/// A check that failed.
pub struct Fault {
    pub refusal: Refusal,
    pub place: Place,
    pub mark: Mark,
    /// The nodes from the root on to the fault, where it is in a tree.
    pub way: Vec<usize>,
    /// Where the row is that is not whole: its position in the file, and its bytes.
    pub row: Option<(usize, usize)>,
}

/// The first check of acceptance that fails, if it fails with this refusal.
pub fn of_acceptance(map: &Map<'_>, refusal: Refusal) -> Option<Fault> {
    let finder = Finder { map, directory: Directory::read(map.file()) };
    finder.find().ok().flatten().filter(|fault| fault.refusal == refusal)
}

struct Finder<'a> {
    map: &'a Map<'a>,
    directory: Directory,
}

/// A fault, none, or a record that cannot be read, which is no record of a file that loads.
type Found = Result<Option<Fault>, Refusal>;

impl Finder<'_> {
    fn find(&self) -> Found {
        let checks = [
            Finder::in_faces,
            Finder::in_face_lists,
            Finder::in_model_faces,
            Finder::in_model_leaves,
            Finder::in_rows,
            Finder::in_trees,
        ];
        for check in checks {
            if let Some(fault) = check(self)? {
                return Ok(Some(fault));
            }
        }
        Ok(None)
    }

    /// A reference outside its table.
    fn astray(&self, at: (usize, usize, &str), what: String, mark: Mark) -> Fault {
        let (section, record, field) = at;
        let offset = match field {
            "" => 0,
            _ => SECTIONS.get(section).map_or(0, |section| section.field_offset(field)),
        };
        let byte = self.directory.position(section, record).map(|at| at + offset);
        let place = Place {
            section: SECTIONS.get(section).map_or("", |section| section.name).to_string(),
            record: Some(record),
            byte,
            field: (!field.is_empty()).then(|| field.to_string()),
            what: Some(what),
        };
        Fault { refusal: Refusal::NotAcceptable, place, mark, way: Vec::new(), row: None }
    }

    fn in_faces(&self) -> Found {
        for index in 0..self.map.faces().len() {
            let face = self.map.faces().get(index)?;
            if let Some(fault) = self.in_face(index, &face)? {
                return Ok(Some(fault));
            }
        }
        Ok(None)
    }

    fn in_face(&self, index: usize, face: &Face) -> Found {
        let (planes, infos) = (self.map.planes().len(), self.map.texture_infos().len());
        let entries = self.map.edge_list().len();
        let at =
            |field, what| Ok(Some(self.astray((FACES, index, field), what, Mark::Face(index))));
        if face.plane >= planes {
            return at("plane", format!("face {index} names plane {} of {planes}", face.plane));
        }
        if face.texture_info >= infos {
            let info = face.texture_info;
            return at(
                "texture_info",
                format!("face {index} names texture info {info} of {infos}"),
            );
        }
        if face.edge.saturating_add(face.edge_count) > entries {
            let range = range(face.edge, face.edge_count);
            return at(
                "edge",
                format!("face {index} names edge-list entries {range} of {entries}"),
            );
        }
        self.in_edges(index, face)
    }

    fn in_edges(&self, index: usize, face: &Face) -> Found {
        let (edges, vertices) = (self.map.edges().len(), self.map.vertices().len());
        let mark = Mark::Face(index);
        for entry in face.edge..face.edge + face.edge_count {
            let edge = self.map.edge_list().get(entry)?.edge;
            if edge >= edges {
                let what = format!(
                    "edge-list entry {entry}, of face {index}, names edge {edge} of {edges}"
                );
                return Ok(Some(self.astray((EDGE_LIST_SECTION, entry, "edge"), what, mark)));
            }
            for vertex in self.map.edges().get(edge)?.vertices {
                if vertex >= vertices {
                    let what = format!(
                        "edge {edge}, of face {index}, names vertex {vertex} of {vertices}"
                    );
                    return Ok(Some(self.astray((EDGES, edge, "vertices"), what, mark)));
                }
            }
        }
        Ok(None)
    }

    fn in_face_lists(&self) -> Found {
        let entries = self.map.face_list().len();
        for index in 0..self.map.leaves().len() {
            let leaf = self.map.leaves().get(index)?;
            if leaf.face_list.saturating_add(leaf.face_list_count) > entries {
                let range = range(leaf.face_list, leaf.face_list_count);
                let what = format!("leaf {index} names face-list entries {range} of {entries}");
                let fault = self.astray((LEAVES, index, "face_list"), what, Mark::Leaf(index));
                return Ok(Some(fault));
            }
        }
        Ok(None)
    }

    fn in_model_faces(&self) -> Found {
        let faces = self.map.faces().len();
        for index in 0..self.map.models().len() {
            let model = self.map.models().get(index)?;
            if model.face.saturating_add(model.face_count) > faces {
                let range = range(model.face, model.face_count);
                let what = format!("model {index} names faces {range} of {faces}");
                let fault = self.astray((MODELS, index, "face"), what, Mark::Model(index));
                return Ok(Some(fault));
            }
        }
        Ok(None)
    }

    fn in_model_leaves(&self) -> Found {
        let leaves = self.map.leaves().len();
        for index in 0..self.map.models().len() {
            let model = self.map.models().get(index)?;
            if model.last_leaf >= leaves {
                let what = format!("model {index}'s last leaf is {} of {leaves}", model.last_leaf);
                let fault = self.astray((MODELS, index, "leaf_count"), what, Mark::Model(index));
                return Ok(Some(fault));
            }
        }
        Ok(None)
    }

    fn in_rows(&self) -> Found {
        let count = self.map.leaves().len();
        let data = self.directory.bytes(self.map.file(), VISIBILITY);
        let told = rows::told_from(data);
        for leaf in 1..count {
            let Some(start) = self.map.leaves().get(leaf)?.visibility else { continue };
            match told.get(start) {
                Some(told) if told + 1 >= count => {}
                told => return Ok(Some(self.in_row(leaf, start, told.copied()))),
            }
        }
        Ok(None)
    }

    /// The row of a leaf that is not whole: where it begins, and how many leaves it tells of, if that is
    /// within the data.
    fn in_row(&self, leaf: usize, start: usize, told: Option<usize>) -> Fault {
        let (leaves, world) = (self.map.leaves().len(), map::leaf_count(self.map));
        let length = self.directory.bytes(self.map.file(), VISIBILITY).len();
        let mut what = format!("leaf {leaf}'s row begins at {start} of {length} bytes");
        if let Some(told) = told {
            what += &format!(
                " and runs off their end: it says {told} of {} leaves, of which model 0 has {}",
                leaves.saturating_sub(1),
                world.saturating_sub(1)
            );
        }
        let fault = self.astray((LEAVES, leaf, "visibility"), what, Mark::Leaf(leaf));
        let row = self.directory.position(VISIBILITY, start.min(length));
        Fault { row: row.map(|at| (at, length.saturating_sub(start))), ..fault }
    }

    fn in_trees(&self) -> Found {
        let mut passed = HashSet::new();
        for model in 0..self.map.models().len() {
            for hull in 0..3 {
                let (table, root) = map::root(self.map, model, hull)?;
                if !passed.insert((table, root)) {
                    continue;
                }
                if let Err(bad) = trees::walk(self.map, table, root) {
                    return Ok(Some(self.in_tree((model, hull), table, bad)));
                }
            }
        }
        let bad = trees::walk(self.map, NodeTable::Render, 0).err();
        Ok(bad.map(|bad| self.in_tree((0, 0), NodeTable::Render, bad)))
    }

    fn in_tree(&self, of: (usize, usize), table: NodeTable, bad: Bad) -> Fault {
        let (model, hull) = of;
        let section = match table {
            NodeTable::Render => RENDER_NODES,
            _ => CLIP_NODES,
        };
        let what = format!("in hull {hull} of model {model}: {}", bad.what);
        let mark = Mark::Tree { model, hull, table, node: bad.node };
        let fault = self.astray((section, bad.node, bad.field.unwrap_or("")), what, mark);
        Fault { refusal: bad.refusal, way: bad.way, ..fault }
    }
}

/// A range of records, in words.
fn range(first: usize, count: usize) -> String {
    match count {
        0 => format!("{first} on (none)"),
        _ => format!("{first} to {}", first.saturating_add(count) - 1),
    }
}

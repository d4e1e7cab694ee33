//! The records of each section: read field by field (1 where the bytes end, 10 where a field is
//! refused), by index (20, 23), and as the words of the C interface.

use super::faces::Extents;
use super::fields::{float_word, is_contents, signed_word, Reader};
use super::plane::Plane;
use super::*;

/// What a record of a section is tested against.
#[derive(Copy, Clone)]
pub struct Counts {
    pub planes: u64,
    pub texinfos: u64,
    pub textures: u64,
}

#[derive(Copy, Clone, Debug)]
pub enum Child {
    Node(u64),
    Contents(u64),
    Leaf(u64),
}

pub struct RenderNode {
    pub plane: u64,
    pub children: [Child; 2],
    pub min: [i16; 3],
    pub max: [i16; 3],
    pub face: u64,
    pub faces: u64,
}

pub struct TexInfo {
    pub s_vector: [f32; 3],
    pub s_offset: f32,
    pub t_vector: [f32; 3],
    pub t_offset: f32,
    pub texture: u64,
    pub special: bool,
}

pub struct Face {
    pub plane: u64,
    pub side: u64,
    pub edge: u64,
    pub edges: u64,
    pub texinfo: u64,
    pub styles: [u8; 4],
    pub lightmap: Option<u64>,
}

pub struct ClipNode {
    pub plane: u64,
    pub children: [Child; 2],
}

pub struct Leaf {
    pub contents: u64,
    pub vis_offset: Option<u64>,
    pub min: [i16; 3],
    pub max: [i16; 3],
    pub facelist: u64,
    pub faces: u64,
    pub sounds: [u8; 4],
}

pub struct EdgeEntry {
    pub backward: bool,
    pub index: u64,
}

pub struct Model {
    pub min: [f32; 3],
    pub max: [f32; 3],
    pub origin: [f32; 3],
    pub roots: [u64; 3],
    pub leaves: u64,
    pub face: u64,
    pub faces: u64,
}

pub fn plane(r: &mut Reader) -> Answer<Plane> {
    let (normal, dist, kind) = (r.three_f32()?, r.f32()?, r.i32()?);
    Ok(Plane::of_file(normal, dist, kind))
}

/// A negative child f is leaf -1 - f.
fn render_child(r: &mut Reader) -> Answer<Child> {
    let child = r.i16()? as i64;
    Ok(if child < 0 { Child::Leaf((-1 - child) as u64) } else { Child::Node(child as u64) })
}

pub fn render_node(r: &mut Reader) -> Answer<RenderNode> {
    let plane = r.not_negative()?;
    let children = [render_child(r)?, render_child(r)?];
    let (min, max) = (r.three_i16()?, r.three_i16()?);
    let face = r.i16()?;
    if face < 0 {
        return Err(10);
    }
    let faces = r.u16()? as u64;
    Ok(RenderNode { plane, children, min, max, face: face as u64, faces })
}

/// The texture number may equal the texture count here; loading refuses that next (11).
pub fn texinfo(r: &mut Reader, counts: Counts) -> Answer<TexInfo> {
    let (s_vector, s_offset) = (r.three_f32()?, r.f32()?);
    let (t_vector, t_offset) = (r.three_f32()?, r.f32()?);
    let texture = r.not_negative()?;
    if texture > counts.textures {
        return Err(10);
    }
    let special = match r.i32()? {
        0 => false,
        1 => true,
        _ => return Err(10),
    };
    Ok(TexInfo { s_vector, s_offset, t_vector, t_offset, texture, special })
}

/// A field of a face from 0 through a count.
fn through(r: &mut Reader, count: u64) -> Answer<u64> {
    let field = r.i16()? as i64;
    if field < 0 || field as u64 > count {
        return Err(10);
    }
    Ok(field as u64)
}

pub fn face(r: &mut Reader, counts: Counts) -> Answer<Face> {
    let plane = through(r, counts.planes)?;
    let side = through(r, 1)?;
    let edge = r.not_negative()?;
    let edges = r.i16()?;
    if edges < 3 {
        return Err(10);
    }
    let texinfo = through(r, counts.texinfos)?;
    let styles = [r.u8()?, r.u8()?, r.u8()?, r.u8()?];
    let lightmap = r.or_none()?;
    Ok(Face { plane, side, edge, edges: edges as u64, texinfo, styles, lightmap })
}

/// A negative child is a contents code, negated.
fn clip_child(r: &mut Reader) -> Answer<Child> {
    let child = r.i16()? as i64;
    if child >= 0 {
        return Ok(Child::Node(child as u64));
    }
    if !is_contents(-child) {
        return Err(10);
    }
    Ok(Child::Contents(-child as u64))
}

pub fn clip_node(r: &mut Reader) -> Answer<ClipNode> {
    let plane = r.not_negative()?;
    Ok(ClipNode { plane, children: [clip_child(r)?, clip_child(r)?] })
}

/// The four sound bytes may be missing at the file's end; loading finds that by the end position.
pub fn leaf(r: &mut Reader) -> Answer<Leaf> {
    let contents = -(r.i32()? as i64);
    if !is_contents(contents) {
        return Err(10);
    }
    let vis_offset = r.or_none()?;
    let (min, max) = (r.three_i16()?, r.three_i16()?);
    let (facelist, faces) = (r.u16()? as u64, r.u16()? as u64);
    let mut sounds = [0; 4];
    for sound in sounds.iter_mut() {
        *sound = r.u8().unwrap_or(0);
    }
    Ok(Leaf { contents: contents as u64, vis_offset, min, max, facelist, faces, sounds })
}

/// A negative entry x gives backward and -x; -2147483648 stays itself, widened with its sign.
pub fn edge_entry(r: &mut Reader) -> Answer<EdgeEntry> {
    let x = r.i32()?;
    let index = if x == i32::MIN { x as i64 as u64 } else { x.unsigned_abs() as u64 };
    Ok(EdgeEntry { backward: x < 0, index })
}

/// The fourth root is read and not tested.
pub fn model(r: &mut Reader) -> Answer<Model> {
    let mut min = r.three_f32()?;
    let mut max = r.three_f32()?;
    let origin = r.three_f32()?;
    for part in 0..3 {
        min[part] -= 1.0;
        max[part] += 1.0;
    }
    let roots = [r.not_negative()?, r.not_negative()?, r.not_negative()?];
    r.i32()?;
    let (leaves, face, faces) = (r.not_negative()?, r.not_negative()?, r.not_negative()?);
    Ok(Model { min, max, origin, roots, leaves, face, faces })
}

impl Map<'_> {
    pub fn counts(&self) -> Counts {
        Counts {
            planes: self.count(PLANES),
            texinfos: self.count(TEXINFOS),
            textures: self.texture_count,
        }
    }

    /// Record `index` of a section: 20 outside its table, else 23 where it cannot be read.
    pub fn by_index<T>(
        &self,
        section: usize,
        index: u64,
        read: impl FnOnce(&mut Reader) -> Answer<T>,
    ) -> Answer<T> {
        if index >= self.count(section) {
            return Err(20);
        }
        let size = record_size(section);
        let at = self.offset(section) + index * size;
        if !self.within_limit(section) || at + size > self.file.len() as u64 {
            return Err(23);
        }
        read(&mut Reader::new(self.file, at)).map_err(|_| 23)
    }

    pub fn plane(&self, index: u64) -> Answer<Plane> {
        self.by_index(PLANES, index, plane)
    }

    pub fn vertex(&self, index: u64) -> Answer<[f32; 3]> {
        self.by_index(VERTICES, index, |r| r.three_f32())
    }

    pub fn render_node(&self, index: u64) -> Answer<RenderNode> {
        self.by_index(RENDER_NODES, index, render_node)
    }

    pub fn texinfo(&self, index: u64) -> Answer<TexInfo> {
        self.by_index(TEXINFOS, index, |r| texinfo(r, self.counts()))
    }

    /// Without its extents.
    pub fn face(&self, index: u64) -> Answer<Face> {
        self.by_index(FACES, index, |r| face(r, self.counts()))
    }

    pub fn clip_node(&self, index: u64) -> Answer<ClipNode> {
        self.by_index(CLIP_NODES, index, clip_node)
    }

    pub fn leaf(&self, index: u64) -> Answer<Leaf> {
        self.by_index(LEAVES, index, leaf)
    }

    pub fn facelist_entry(&self, index: u64) -> Answer<u16> {
        self.by_index(FACELIST, index, |r| r.u16())
    }

    pub fn edge(&self, index: u64) -> Answer<[u16; 2]> {
        self.by_index(EDGES, index, |r| Ok([r.u16()?, r.u16()?]))
    }

    pub fn edge_entry(&self, index: u64) -> Answer<EdgeEntry> {
        self.by_index(EDGELIST, index, edge_entry)
    }

    /// A model and its leaf_id, the sum of the leaf counts of the models before it; each of them
    /// must be readable.
    pub fn model(&self, index: u64) -> Answer<(Model, u64)> {
        let wanted = self.by_index(MODELS, index, model)?;
        let mut leaf_id = 0;
        for before in 0..index {
            leaf_id += self.by_index(MODELS, before, model)?.leaves;
        }
        Ok((wanted, leaf_id))
    }

    /// The clip node total minus the root, wrapping modulo 2^64.
    pub fn node_count_from(&self, root: u64) -> u64 {
        self.count(CLIP_NODES).wrapping_sub(root)
    }

    /// Record `index` of a section as words; sections of bytes have no records (20).
    pub fn record_words(&self, section: u32, index: u64) -> Answer<Vec<u64>> {
        let mut out = Vec::new();
        match section as usize {
            PLANES => plane_words(&mut out, &self.plane(index)?),
            VERTICES => floats(&mut out, &self.vertex(index)?),
            RENDER_NODES => render_node_words(&mut out, &self.render_node(index)?),
            TEXINFOS => {
                let info = self.texinfo(index)?;
                let texture = self.texture_number(info.texture)?;
                texinfo_words(&mut out, &TexInfo { texture, ..info });
            }
            FACES => {
                let face = self.face(index)?;
                let extents = self.extents(&face)?;
                face_words(&mut out, &face, &extents);
            }
            CLIP_NODES => {
                let node = self.clip_node(index)?;
                out.push(node.plane);
                children(&mut out, &node.children);
            }
            LEAVES => leaf_words(&mut out, &self.leaf(index)?),
            FACELIST => out.push(self.facelist_entry(index)? as u64),
            EDGES => out.extend(self.edge(index)?.map(u64::from)),
            EDGELIST => {
                let entry = self.edge_entry(index)?;
                out.extend([entry.backward as u64, entry.index]);
            }
            MODELS => {
                let (model, leaf_id) = self.model(index)?;
                self.model_words(&mut out, &model, leaf_id);
            }
            _ => return Err(20),
        }
        Ok(out)
    }

    fn model_words(&self, out: &mut Vec<u64>, m: &Model, leaf_id: u64) {
        floats(out, &m.min);
        floats(out, &m.max);
        floats(out, &m.origin);
        out.extend(m.roots);
        out.extend(m.roots.map(|root| self.node_count_from(root)));
        out.extend([leaf_id, m.leaves, m.face, m.faces, leaf_id + m.leaves]);
    }
}

fn floats(out: &mut Vec<u64>, from: &[f32]) {
    out.extend(from.iter().map(|x| float_word(*x)));
}

pub fn plane_words(out: &mut Vec<u64>, p: &Plane) {
    out.push(p.kind());
    floats(out, &p.normal());
    out.push(float_word(p.dist));
}

fn children(out: &mut Vec<u64>, children: &[Child; 2]) {
    for child in children {
        out.extend(match child {
            Child::Node(n) => [0, *n],
            Child::Contents(n) | Child::Leaf(n) => [1, *n],
        });
    }
}

fn render_node_words(out: &mut Vec<u64>, n: &RenderNode) {
    out.push(n.plane);
    children(out, &n.children);
    out.extend(n.min.map(signed_word));
    out.extend(n.max.map(signed_word));
    out.extend([n.face, n.faces]);
}

fn texinfo_words(out: &mut Vec<u64>, t: &TexInfo) {
    floats(out, &t.s_vector);
    floats(out, &[t.s_offset]);
    floats(out, &t.t_vector);
    floats(out, &[t.t_offset]);
    out.extend([t.texture, t.special as u64]);
}

fn face_words(out: &mut Vec<u64>, f: &Face, e: &Extents) {
    out.extend([f.plane, f.side, f.edge, f.edges, f.texinfo]);
    out.extend(f.styles.map(u64::from));
    out.push(f.lightmap.unwrap_or(u64::MAX));
    out.extend(e.texture_mins.map(signed_word));
    out.extend(e.extents.map(signed_word));
}

fn leaf_words(out: &mut Vec<u64>, l: &Leaf) {
    out.extend([l.contents, l.vis_offset.unwrap_or(u64::MAX)]);
    out.extend(l.min.map(signed_word));
    out.extend(l.max.map(signed_word));
    out.extend([l.facelist, l.faces]);
    out.extend(l.sounds.map(u64::from));
}

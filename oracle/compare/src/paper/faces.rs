//! Texture minimums and extents of a face.

use super::plane::dot;
use super::records::{Face, TexInfo};
use super::*;

pub struct Extents {
    pub texture_mins: [i16; 2],
    pub extents: [i16; 2],
}

/// Least and greatest of the numbers taken in; a NaN changes neither.
struct Span {
    least: f32,
    greatest: f32,
}

impl Span {
    fn new() -> Span {
        Span { least: f32::INFINITY, greatest: f32::NEG_INFINITY }
    }

    fn take(&mut self, x: f32) {
        if x < self.least {
            self.least = x;
        }
        if x > self.greatest {
            self.greatest = x;
        }
    }

    /// The floored minimum / 16 and the ceiled maximum / 16, their difference taken in f32; each is
    /// cast and then multiplied by 16 in 16 bits.
    fn extents(&self) -> (i16, i16) {
        let low = (self.least / 16.0).floor();
        let high = (self.greatest / 16.0).ceil();
        (times_16(low as i16), times_16((high - low) as i16))
    }
}

fn times_16(x: i16) -> i16 {
    x.wrapping_mul(16)
}

/// The extents of the vertices given, by the texture info's vectors.
fn of_vertices(texinfo: &TexInfo, vertices: &[[f32; 3]]) -> Extents {
    let (mut s, mut t) = (Span::new(), Span::new());
    for vertex in vertices {
        s.take(dot(texinfo.s_vector, *vertex) + texinfo.s_offset);
        t.take(dot(texinfo.t_vector, *vertex) + texinfo.t_offset);
    }
    let ((s_min, s_extent), (t_min, t_extent)) = (s.extents(), t.extents());
    Extents { texture_mins: [s_min, t_min], extents: [s_extent, t_extent] }
}

impl Map<'_> {
    /// The vertices of a face: its edge-list range, then each edge with the vertex on the entry's
    /// side. `None` for an index outside its table.
    fn vertices_of(&self, face: &Face) -> Answer<Option<Vec<[f32; 3]>>> {
        if face.edge + face.edges > self.count(EDGELIST) {
            return Ok(None);
        }
        let mut vertices = Vec::new();
        for at in face.edge..face.edge + face.edges {
            let entry = self.edge_entry(at)?;
            if entry.index >= self.count(EDGES) {
                return Ok(None);
            }
            let ends = self.edge(entry.index)?;
            let vertex = ends[entry.backward as usize] as u64;
            if vertex >= self.count(VERTICES) {
                return Ok(None);
            }
            vertices.push(self.vertex(vertex)?);
        }
        Ok(Some(vertices))
    }

    /// The extents of a face and its texture info. `None` for an index outside its table.
    pub fn extents_and_texinfo(&self, face: &Face) -> Answer<Option<(Extents, TexInfo)>> {
        if face.texinfo >= self.count(TEXINFOS) {
            return Ok(None);
        }
        let texinfo = self.texinfo(face.texinfo)?;
        let vertices = self.vertices_of(face)?;
        Ok(vertices.map(|vertices| (of_vertices(&texinfo, &vertices), texinfo)))
    }

    /// On a map record whoever made it: an index outside its table is 23, and 12 is not tested.
    pub fn extents(&self, face: &Face) -> Answer<Extents> {
        match self.extents_and_texinfo(face)? {
            None => Err(23),
            Some((extents, _)) => Ok(extents),
        }
    }
}

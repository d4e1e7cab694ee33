//! What is put together from several records: the corners and the light of a face, a model's leaves and
//! faces; and the sections that are bytes. Plain Rust over the proved calls.

use crate::map::MOST_VISIBILITY;
use crate::{Face, FaceListEntry, Leaf, MapOf, RecordIter, Refusal, Section};

/// The light on a face in one of its styles: a byte for each 16 units of the texture, row by row.
#[derive(Copy, Clone, Debug, PartialEq, Eq, Hash)]
pub struct Lightmap<'m> {
    /// How many bytes a row has.
    pub width: u32,
    /// How many rows there are.
    pub height: u32,
    /// The bytes: a part of the file.
    pub data: &'m [u8],
}

/// The light style that ends a face's list of styles.
const NO_STYLE: u8 = 255;

/// Faces, models and the sections that are bytes. These functions are plain Rust, over records that the
/// proved calls give.
impl<B: AsRef<[u8]>> MapOf<B> {
    /// The bytes of the visibility section: a part of the file. A leaf's row begins at
    /// [`Leaf::visibility`]; [`visible_leaves`](MapOf::visible_leaves) reads rows. Refuses with 23 where a
    /// map record made by hand leads outside the file or above the section's limit.
    ///
    /// ```
    /// # let file = std::fs::read(concat!(env!("CARGO_MANIFEST_DIR"), "/../../maps/rooms.bsp")).unwrap();
    /// let map = bsp29::Map::load(&file)?;
    /// let row = map.leaves().get(4)?.visibility.unwrap();
    /// assert_eq!(map.visibility()?[row], 0b1101);
    /// # Ok::<(), bsp29::Refusal>(())
    /// ```
    pub fn visibility(&self) -> Result<&[u8], Refusal> {
        match self.bytes_of(Section::Visibility) {
            Ok(bytes) if bytes.len() > MOST_VISIBILITY => Err(Refusal::Unreadable),
            bytes => bytes,
        }
    }

    /// The bytes of the lightmap section: a part of the file. Refuses with 23 where a map record made by
    /// hand leads outside the file.
    ///
    /// ```
    /// # let file = std::fs::read(concat!(env!("CARGO_MANIFEST_DIR"), "/../../maps/rooms.bsp")).unwrap();
    /// let map = bsp29::Map::load(&file)?;
    /// assert_eq!(map.lightmaps()?.len(), map.words()[2 * 8 + 1] as usize);
    /// # Ok::<(), bsp29::Refusal>(())
    /// ```
    pub fn lightmaps(&self) -> Result<&[u8], Refusal> {
        self.bytes_of(Section::Lightmaps)
    }

    /// The bytes of a section; an empty one may lie anywhere.
    fn bytes_of(&self, section: Section) -> Result<&[u8], Refusal> {
        let at = 2 * section.number() as usize;
        let (offset, size) = (self.words()[at] as usize, self.words()[at + 1] as usize);
        if size == 0 {
            return Ok(&[]);
        }
        self.file().get(offset..offset.saturating_add(size)).ok_or(Refusal::Unreadable)
    }

    /// The corners of a face, in its order: of each edge the vertex that the face comes to first. Refuses as
    /// [`faces`](MapOf::faces) does; of a map that was loaded no corner is refused.
    ///
    /// ```
    /// # let file = std::fs::read(concat!(env!("CARGO_MANIFEST_DIR"), "/../../maps/rooms.bsp")).unwrap();
    /// let map = bsp29::Map::load(&file)?;
    /// let corners: Result<Vec<[f32; 3]>, _> = map.face_vertices(0)?.collect();
    /// let plane = map.planes().get(map.faces().get(0)?.plane)?;
    /// assert!(corners?.iter().all(|corner| plane.point_dist(*corner) == 0.0));
    /// # Ok::<(), bsp29::Refusal>(())
    /// ```
    pub fn face_vertices(
        &self,
        face: usize,
    ) -> Result<
        impl DoubleEndedIterator<Item = Result<[f32; 3], Refusal>> + ExactSizeIterator + '_,
        Refusal,
    > {
        let (edges, vertices) = (self.edges(), self.vertices());
        let Face { edge, edge_count, .. } = self.faces().get(face)?;
        let entries = self.edge_list().range(edge..edge.saturating_add(edge_count))?;
        Ok(entries.map(move |entry| {
            let entry = entry?;
            let ends = edges.get(entry.edge)?.vertices;
            vertices.get(ends[entry.direction as usize]).map(|vertex| vertex.point)
        }))
    }

    /// The light on a face, one for each of its styles up to the first that is 255; none for a face without
    /// lightmap. Refuses as [`faces`](MapOf::faces) does, and with 23 where the bytes lie outside the
    /// section, which loading does not test (richter panics there).
    ///
    /// ```
    /// # let file = std::fs::read(concat!(env!("CARGO_MANIFEST_DIR"), "/../../maps/rooms.bsp")).unwrap();
    /// let map = bsp29::Map::load(&file)?;
    /// // the first face of the sample asks for more light than there is; the second has none
    /// assert_eq!(map.face_lightmaps(0), Err(bsp29::Refusal::Unreadable));
    /// assert!(map.face_lightmaps(1)?.is_empty());
    /// # Ok::<(), bsp29::Refusal>(())
    /// ```
    pub fn face_lightmaps(&self, face: usize) -> Result<Vec<Lightmap<'_>>, Refusal> {
        let face = self.faces().get(face)?;
        let Some(first) = face.lightmap else { return Ok(Vec::new()) };
        let bytes = self.lightmaps()?;
        // an extent is a multiple of 16, and negative where it wrapped: then no section is so large
        let [width, height] = face.extents.map(|extent| extent as u32 / 16 + 1);
        let size = u64::from(width) * u64::from(height);
        let styles = face.light_styles.iter().take_while(|style| **style != NO_STYLE).count();
        let light = |number: usize| {
            let start = (first as u64).saturating_add(size.saturating_mul(number as u64));
            let end = start.saturating_add(size);
            let data = bytes.get(start as usize..end as usize).ok_or(Refusal::Unreadable)?;
            Ok(Lightmap { width, height, data })
        };
        (0..styles).map(light).collect()
    }

    /// The leaves of a model, its last one included, as richter's `iter_leaves` gives them. Refuses as
    /// [`models`](MapOf::models) does, and with 20 where they are not all in the table, which loading does
    /// not test; [`accept`](MapOf::accept) does.
    ///
    /// ```
    /// # let file = std::fs::read(concat!(env!("CARGO_MANIFEST_DIR"), "/../../maps/rooms.bsp")).unwrap();
    /// let map = bsp29::Map::load(&file)?;
    /// let door: Result<Vec<_>, _> = map.model_leaves(1)?.collect();
    /// assert_eq!(door?, [map.leaves().get(4)?, map.leaves().get(5)?]);
    /// # Ok::<(), bsp29::Refusal>(())
    /// ```
    pub fn model_leaves(&self, model: usize) -> Result<RecordIter<'_, Leaf>, Refusal> {
        let model = self.models().get(model)?;
        self.leaves().range(model.leaf..model.last_leaf.saturating_add(1))
    }

    /// The faces of a model: those of its number and count in the table of faces, as the format has them.
    /// Refuses as [`model_leaves`](MapOf::model_leaves) does.
    ///
    /// richter's `iter_faces` takes the same number and count in the list of the leaves' faces:
    /// [`model_face_list`](MapOf::model_face_list).
    ///
    /// ```
    /// # let file = std::fs::read(concat!(env!("CARGO_MANIFEST_DIR"), "/../../maps/rooms.bsp")).unwrap();
    /// let map = bsp29::Map::load(&file)?;
    /// assert_eq!(map.model_faces(0)?.len() + map.model_faces(1)?.len(), map.faces().len());
    /// # Ok::<(), bsp29::Refusal>(())
    /// ```
    pub fn model_faces(&self, model: usize) -> Result<RecordIter<'_, Face>, Refusal> {
        let model = self.models().get(model)?;
        self.faces().range(model.face..model.face.saturating_add(model.face_count))
    }

    /// The entries of the face list that richter's `face_list` gives for a model, and whose faces its
    /// `iter_faces` gives. Refuses as [`model_leaves`](MapOf::model_leaves) does; neither loading nor
    /// [`accept`](MapOf::accept) tests this range.
    ///
    /// ```
    /// # let file = std::fs::read(concat!(env!("CARGO_MANIFEST_DIR"), "/../../maps/rooms.bsp")).unwrap();
    /// let map = bsp29::Map::load(&file)?;
    /// let list = map.model_face_list(0)?;
    /// assert_eq!(list.len(), map.models().get(0)?.face_count);
    /// # Ok::<(), bsp29::Refusal>(())
    /// ```
    pub fn model_face_list(&self, model: usize) -> Result<RecordIter<'_, FaceListEntry>, Refusal> {
        let model = self.models().get(model)?;
        self.face_list().range(model.face..model.face.saturating_add(model.face_count))
    }
}

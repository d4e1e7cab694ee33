//! A map, and the questions that it answers.

use crate::hull::both;
use crate::records::*;
use crate::{ffi, BodySizes, Hull, LineTrace, NodeTable, Refusal, Section, Trace};
use std::fmt;

/// The most bytes that visibility data may have.
pub(crate) const MOST_VISIBILITY: usize = 1_048_576;

/// The most textures that a section may have.
const MOST_TEXTURES: usize = 2_097_152;

/// The most players of a team.
const MOST_PLAYERS: usize = 16;

/// The most nodes that a table may have. Of a longer one, which a map record made by hand can name, no
/// node is read.
const MOST_NODES: usize = 32_767;

/// The most points that are asked at once.
const MOST_POINTS: usize = 1_024;

/// A map over bytes that someone else holds: what [`Map::load`](MapOf::load) of a slice gives. It can be
/// copied, and it asks for no memory.
pub type Map<'a> = MapOf<&'a [u8]>;

/// A map over the bytes of its file, in whatever holds them: a slice ([`Map`]), `Vec<u8>`, `Box<[u8]>`,
/// `Arc<[u8]>` or a type of your own. It never copies them.
///
/// Whatever the bytes are, no call crashes, hangs or reads outside them. Ask whether a map from a
/// stranger may be played ([`accept`](MapOf::accept)) before it is: then every question to it is answered.
///
/// A call needs at most some 574,000 bytes of stack, [`texture_numbers`](MapOf::texture_numbers) 989,000
/// (measured, not proved; `include/bsp29.h` says of which call).
///
/// ```
/// # let file = std::fs::read(concat!(env!("CARGO_MANIFEST_DIR"), "/../../maps/rooms.bsp")).unwrap();
/// let map = bsp29::Map::load(&file)?;
/// map.accept()?;
/// let hull = map.hull(0, 1)?;
/// let trace = map.trace(&hull, [-64.0, 64.0, 0.0], [64.0, 64.0, 0.0])?;
/// assert_eq!(trace.end, [-24.0, 64.0, 0.0]);
/// # Ok::<(), bsp29::Refusal>(())
/// ```
///
/// A struct that holds the file and its map, which any thread may ask:
///
/// ```
/// use bsp29::{Hull, MapOf, Refusal};
/// use std::sync::Arc;
///
/// struct Level {
///     map: MapOf<Arc<[u8]>>,
///     player: Hull,
/// }
///
/// impl Level {
///     fn new(file: Arc<[u8]>) -> Result<Level, Refusal> {
///         let map = MapOf::load(file)?;
///         map.accept()?;
///         Ok(Level { player: map.hull(0, 1)?, map })
///     }
/// }
///
/// # let bytes = std::fs::read(concat!(env!("CARGO_MANIFEST_DIR"), "/../../maps/rooms.bsp")).unwrap();
/// let level = Arc::new(Level::new(bytes.into())?);
/// let theirs = Arc::clone(&level);
/// let there = std::thread::spawn(move || theirs.map.contents(&theirs.player, [-64.0, 0.0, 0.0]));
/// assert_eq!(there.join().unwrap(), level.map.contents(&level.player, [-64.0, 0.0, 0.0]));
/// # Ok::<(), Refusal>(())
/// ```
#[derive(Copy, Clone)]
pub struct MapOf<B> {
    file: B,
    words: ffi::MapWords,
}

/// The size of the file and the map record; not the file.
impl<B: AsRef<[u8]>> fmt::Debug for MapOf<B> {
    fn fmt(&self, f: &mut fmt::Formatter<'_>) -> fmt::Result {
        let mut shown = f.debug_struct("Map");
        shown.field("bytes", &self.file().len());
        for (section, part) in Section::ALL.iter().zip(self.words.chunks(2)) {
            shown.field(section.name(), &(part[0], part[1]));
        }
        shown.field("texture count", &self.texture_count()).finish()
    }
}

impl<B: AsRef<[u8]>> MapOf<B> {
    /// Loads a file: reads and tests all that the other calls rely on. Refuses with 1 to 15, the first
    /// that is met in the file's order.
    ///
    /// Each face's edges are read, and a face may name up to 32,767 of them, which other faces may name
    /// too: the time grows with the faces times their edges, and not with the file's bytes alone
    /// (docs/PERFORMANCE.md). Limit the size of the files that you load.
    ///
    /// ```
    /// use bsp29::{Map, MapOf, Refusal};
    ///
    /// # let file = std::fs::read(concat!(env!("CARGO_MANIFEST_DIR"), "/../../maps/rooms.bsp")).unwrap();
    /// let map = Map::load(&file)?;
    /// assert_eq!(map.leaves().len(), 6);
    ///
    /// assert_eq!(Map::load(&[28, 0, 0, 0]).unwrap_err(), Refusal::UnsupportedVersion);
    ///
    /// // one that owns its file
    /// let map: MapOf<Vec<u8>> = MapOf::load(file)?;
    /// assert_eq!(map.leaves().len(), 6);
    /// # Ok::<(), Refusal>(())
    /// ```
    pub fn load(file: B) -> Result<MapOf<B>, Refusal> {
        let words = ffi::load(file.as_ref())?;
        Ok(MapOf { file, words })
    }

    /// The map of a file and a map record: one that [`words`](MapOf::words) gave for the same bytes, so
    /// that they are not tested again, or one made by hand. A map record that leads astray makes calls
    /// refuse with 23 and nothing worse, and so do bytes that are no longer those that were loaded.
    ///
    /// ```
    /// use bsp29::{Map, Refusal};
    ///
    /// # let file = std::fs::read(concat!(env!("CARGO_MANIFEST_DIR"), "/../../maps/rooms.bsp")).unwrap();
    /// let map = Map::load(&file)?;
    /// let again = Map::from_words(&file, *map.words());
    /// assert_eq!(again.planes().get(0)?, map.planes().get(0)?);
    ///
    /// let astray = Map::from_words(&[], *map.words());
    /// assert_eq!(astray.planes().get(0), Err(Refusal::Unreadable));
    /// # Ok::<(), Refusal>(())
    /// ```
    pub fn from_words(file: B, words: [u32; 31]) -> MapOf<B> {
        MapOf { file, words }
    }

    /// The same map over these bytes as a slice, for what takes a [`Map`].
    ///
    /// ```
    /// use bsp29::{Map, MapOf, Refusal};
    ///
    /// fn door(map: &Map) -> Result<usize, Refusal> {
    ///     Ok(map.models().get(1)?.leaf)
    /// }
    ///
    /// # let file = std::fs::read(concat!(env!("CARGO_MANIFEST_DIR"), "/../../maps/rooms.bsp")).unwrap();
    /// let map = MapOf::load(file)?;
    /// assert_eq!(door(&map.lent())?, 4);
    /// # Ok::<(), Refusal>(())
    /// ```
    pub fn lent(&self) -> Map<'_> {
        MapOf { file: self.file(), words: self.words }
    }

    /// What holds the bytes of the file.
    ///
    /// ```
    /// # let file = std::fs::read(concat!(env!("CARGO_MANIFEST_DIR"), "/../../maps/rooms.bsp")).unwrap();
    /// let map = bsp29::MapOf::load(file)?;
    /// let file: Vec<u8> = map.into_file();
    /// assert_eq!(file[0], 29);
    /// # Ok::<(), bsp29::Refusal>(())
    /// ```
    pub fn into_file(self) -> B {
        self.file
    }

    /// The map record: offset and size of each section in the file's order, then the texture count.
    ///
    /// ```
    /// # let file = std::fs::read(concat!(env!("CARGO_MANIFEST_DIR"), "/../../maps/smallest.bsp")).unwrap();
    /// let map = bsp29::Map::load(&file)?;
    /// assert_eq!(map.words()[..2], [124, 1]);
    /// # Ok::<(), bsp29::Refusal>(())
    /// ```
    pub fn words(&self) -> &[u32; 31] {
        &self.words
    }

    /// The bytes of the file.
    ///
    /// ```
    /// # let file = std::fs::read(concat!(env!("CARGO_MANIFEST_DIR"), "/../../maps/smallest.bsp")).unwrap();
    /// let map = bsp29::Map::load(&file)?;
    /// assert_eq!(map.file().len(), 193);
    /// # Ok::<(), bsp29::Refusal>(())
    /// ```
    pub fn file(&self) -> &[u8] {
        self.file.as_ref()
    }

    /// How many textures the file says it has, absent ones counted.
    ///
    /// ```
    /// # let file = std::fs::read(concat!(env!("CARGO_MANIFEST_DIR"), "/../../maps/rooms.bsp")).unwrap();
    /// let map = bsp29::Map::load(&file)?;
    /// assert_eq!(map.texture_count(), 1);
    /// # Ok::<(), bsp29::Refusal>(())
    /// ```
    pub fn texture_count(&self) -> usize {
        self.words[30] as usize
    }

    /// How many records a section has.
    pub(crate) fn count(&self, section: Section) -> usize {
        count(&self.words, section.number())
    }

    /// How many nodes a table has.
    fn nodes(&self, table: NodeTable) -> usize {
        match table {
            NodeTable::Render => self.count(Section::RenderNodes),
            NodeTable::Clip => self.count(Section::ClipNodes),
            NodeTable::Box => 6,
        }
    }
}

/// The tables.
impl<B: AsRef<[u8]>> MapOf<B> {
    /// The planes.
    ///
    /// ```
    /// # let file = std::fs::read(concat!(env!("CARGO_MANIFEST_DIR"), "/../../maps/rooms.bsp")).unwrap();
    /// let map = bsp29::Map::load(&file)?;
    /// let plane = map.planes().get(map.render_nodes().get(0)?.plane)?;
    /// assert_eq!((plane.normal, plane.dist), ([1.0, 0.0, 0.0], 128.0));
    /// # Ok::<(), bsp29::Refusal>(())
    /// ```
    pub fn planes(&self) -> Records<'_, Plane> {
        Records::new(self.file(), &self.words)
    }

    /// The vertices.
    ///
    /// ```
    /// # let file = std::fs::read(concat!(env!("CARGO_MANIFEST_DIR"), "/../../maps/rooms.bsp")).unwrap();
    /// let map = bsp29::Map::load(&file)?;
    /// assert_eq!(map.vertices().get(2)?.point, [-8.0, 128.0, -64.0]);
    /// # Ok::<(), bsp29::Refusal>(())
    /// ```
    pub fn vertices(&self) -> Records<'_, Vertex> {
        Records::new(self.file(), &self.words)
    }

    /// The render nodes.
    ///
    /// ```
    /// # let file = std::fs::read(concat!(env!("CARGO_MANIFEST_DIR"), "/../../maps/rooms.bsp")).unwrap();
    /// use bsp29::RenderChild;
    ///
    /// let map = bsp29::Map::load(&file)?;
    /// let node = map.render_nodes().get(0)?;
    /// assert_eq!(node.front, RenderChild::Leaf(0));
    /// assert_eq!(node.back, RenderChild::Node(1));
    /// # Ok::<(), bsp29::Refusal>(())
    /// ```
    pub fn render_nodes(&self) -> Records<'_, RenderNode> {
        Records::new(self.file(), &self.words)
    }

    /// The number in the file of the frame at a place of a group, by the new number of an animated
    /// texture. New numbers: static textures first, in the file's order, and then one for each stem of
    /// animated ones, by the lowest number in the file of a texture with it. Frames of a group stand in
    /// the order of their names, equal names in the file's order. Refuses with 23, a texture section that
    /// loading refuses; then 20, a number or place that is none.
    ///
    /// The names of all textures are read some fifteen times, and once more for every 16,383 stems.
    ///
    /// ```
    /// # let file = std::fs::read(concat!(env!("CARGO_MANIFEST_DIR"), "/../../maps/rooms.bsp")).unwrap();
    /// use bsp29::{FrameGroup, Map, Refusal};
    ///
    /// let map = Map::load(&file)?;
    /// // its one texture is static
    /// assert_eq!(map.texture_frame(0, FrameGroup::Primary, 0), Err(Refusal::NoSuchRecord));
    /// # Ok::<(), Refusal>(())
    /// ```
    pub fn texture_frame(
        &self,
        number: usize,
        group: FrameGroup,
        place: usize,
    ) -> Result<usize, Refusal> {
        let group = match group {
            FrameGroup::Primary => 0,
            FrameGroup::Alternate => 1,
        };
        ffi::texture_frame(self.file(), &self.words, number as u64, group, place as u64)
            .map(|n| n as usize)
    }

    /// The number in the file of the static texture of a new number. Refuses with 23, a texture section
    /// that loading refuses; then 20, a number that no static texture has.
    ///
    /// ```
    /// # let file = std::fs::read(concat!(env!("CARGO_MANIFEST_DIR"), "/../../maps/rooms.bsp")).unwrap();
    /// let map = bsp29::Map::load(&file)?;
    /// let number = map.texture_infos().get(0)?.texture;
    /// assert_eq!(map.texture_static(number)?, 0);
    /// # Ok::<(), bsp29::Refusal>(())
    /// ```
    pub fn texture_static(&self, number: usize) -> Result<usize, Refusal> {
        ffi::texture_static(self.file(), &self.words, number as u64).map(|n| n as usize)
    }

    /// The texture of a number in the file, none where it is absent. Refuses with 20, a number at or
    /// past [`texture_count`](MapOf::texture_count); then 23, an offset or header that loading refuses.
    ///
    /// ```
    /// # let file = std::fs::read(concat!(env!("CARGO_MANIFEST_DIR"), "/../../maps/rooms.bsp")).unwrap();
    /// use bsp29::{Map, Refusal};
    ///
    /// let map = Map::load(&file)?;
    /// map.texture(0)?;
    /// assert_eq!(map.texture(1), Err(Refusal::NoSuchRecord));
    /// # Ok::<(), Refusal>(())
    /// ```
    pub fn texture(&self, index: usize) -> Result<Option<Texture>, Refusal> {
        ffi::texture(self.file(), &self.words, index as u64).map(|words| Texture::of(&words))
    }

    /// The new numbers of all textures, by their numbers in the file. Refuses with 23, a texture section
    /// that loading refuses.
    ///
    /// The names of all textures are read a few times, and those from a part on whose stem no part had yet
    /// once more for every part of 12,287 stems.
    ///
    /// ```
    /// # let file = std::fs::read(concat!(env!("CARGO_MANIFEST_DIR"), "/../../maps/rooms.bsp")).unwrap();
    /// let map = bsp29::Map::load(&file)?;
    /// // its one texture is static
    /// assert_eq!(map.texture_numbers()?, [0]);
    /// # Ok::<(), bsp29::Refusal>(())
    /// ```
    pub fn texture_numbers(&self) -> Result<Vec<u32>, Refusal> {
        // more than the file has offsets for, or than a section may have, is refused
        let most = self.texture_count().min(MOST_TEXTURES).min(self.file().len() / 4);
        let mut list = vec![0; most];
        let count = self.texture_numbers_into(&mut list)?;
        list.truncate(count);
        Ok(list)
    }

    /// The same into a list of the caller's: it answers how many there are and leaves the rest of the
    /// list as it is. Refuses with 22, last of all, where the list is too short.
    ///
    /// ```
    /// # let file = std::fs::read(concat!(env!("CARGO_MANIFEST_DIR"), "/../../maps/rooms.bsp")).unwrap();
    /// use bsp29::{Map, Refusal};
    ///
    /// let map = Map::load(&file)?;
    /// let mut list = [7; 2];
    /// assert_eq!(map.texture_numbers_into(&mut list)?, 1);
    /// assert_eq!(list, [0, 7]);
    /// assert_eq!(map.texture_numbers_into(&mut []), Err(Refusal::ListTooShort));
    /// # Ok::<(), Refusal>(())
    /// ```
    pub fn texture_numbers_into(&self, list: &mut [u32]) -> Result<usize, Refusal> {
        ffi::texture_numbers(self.file(), &self.words, list).map(|count| count as usize)
    }

    /// The texture infos.
    ///
    /// ```
    /// # let file = std::fs::read(concat!(env!("CARGO_MANIFEST_DIR"), "/../../maps/rooms.bsp")).unwrap();
    /// let map = bsp29::Map::load(&file)?;
    /// assert_eq!(map.texture_infos().get(0)?.t, [0.0, -1.0, 0.0]);
    /// # Ok::<(), bsp29::Refusal>(())
    /// ```
    pub fn texture_infos(&self) -> Records<'_, TextureInfo> {
        Records::new(self.file(), &self.words)
    }

    /// The faces.
    ///
    /// ```
    /// # let file = std::fs::read(concat!(env!("CARGO_MANIFEST_DIR"), "/../../maps/rooms.bsp")).unwrap();
    /// let map = bsp29::Map::load(&file)?;
    /// assert_eq!(map.faces().get(0)?.extents, [128, 272]);
    /// # Ok::<(), bsp29::Refusal>(())
    /// ```
    pub fn faces(&self) -> Records<'_, Face> {
        Records::new(self.file(), &self.words)
    }

    /// The clip nodes.
    ///
    /// ```
    /// # let file = std::fs::read(concat!(env!("CARGO_MANIFEST_DIR"), "/../../maps/rooms.bsp")).unwrap();
    /// use bsp29::{ClipChild, Contents};
    ///
    /// let map = bsp29::Map::load(&file)?;
    /// assert_eq!(map.clip_nodes().get(0)?.front, ClipChild::Contents(Contents::Solid));
    /// # Ok::<(), bsp29::Refusal>(())
    /// ```
    pub fn clip_nodes(&self) -> Records<'_, ClipNode> {
        Records::new(self.file(), &self.words)
    }

    /// The leaves.
    ///
    /// ```
    /// # let file = std::fs::read(concat!(env!("CARGO_MANIFEST_DIR"), "/../../maps/rooms.bsp")).unwrap();
    /// let map = bsp29::Map::load(&file)?;
    /// assert_eq!(map.leaves().get(4)?.visibility, Some(3));
    /// assert_eq!(map.leaves().get(0)?.visibility, None);
    /// # Ok::<(), bsp29::Refusal>(())
    /// ```
    pub fn leaves(&self) -> Records<'_, Leaf> {
        Records::new(self.file(), &self.words)
    }

    /// The face list: the faces of the leaves.
    ///
    /// ```
    /// # let file = std::fs::read(concat!(env!("CARGO_MANIFEST_DIR"), "/../../maps/rooms.bsp")).unwrap();
    /// let map = bsp29::Map::load(&file)?;
    /// assert_eq!(map.face_list().get(1)?.face, 1);
    /// # Ok::<(), bsp29::Refusal>(())
    /// ```
    pub fn face_list(&self) -> Records<'_, FaceListEntry> {
        Records::new(self.file(), &self.words)
    }

    /// The edges.
    ///
    /// ```
    /// # let file = std::fs::read(concat!(env!("CARGO_MANIFEST_DIR"), "/../../maps/rooms.bsp")).unwrap();
    /// let map = bsp29::Map::load(&file)?;
    /// assert_eq!(map.edges().get(4)?.vertices, [0, 3]);
    /// # Ok::<(), bsp29::Refusal>(())
    /// ```
    pub fn edges(&self) -> Records<'_, Edge> {
        Records::new(self.file(), &self.words)
    }

    /// The edge list: the edges of the faces, each with its direction.
    ///
    /// ```
    /// # let file = std::fs::read(concat!(env!("CARGO_MANIFEST_DIR"), "/../../maps/rooms.bsp")).unwrap();
    /// use bsp29::Direction;
    ///
    /// let map = bsp29::Map::load(&file)?;
    /// let entry = map.edge_list().get(3)?;
    /// assert_eq!((entry.direction, entry.edge), (Direction::Backward, 4));
    /// # Ok::<(), bsp29::Refusal>(())
    /// ```
    pub fn edge_list(&self) -> Records<'_, EdgeListEntry> {
        Records::new(self.file(), &self.words)
    }

    /// The models.
    ///
    /// ```
    /// # let file = std::fs::read(concat!(env!("CARGO_MANIFEST_DIR"), "/../../maps/rooms.bsp")).unwrap();
    /// let map = bsp29::Map::load(&file)?;
    /// let door = map.models().get(1)?;
    /// assert_eq!(door.min, [-9.0, -33.0, -65.0]);
    /// assert_eq!((door.leaf, door.last_leaf), (4, 5));
    /// # Ok::<(), bsp29::Refusal>(())
    /// ```
    pub fn models(&self) -> Records<'_, Model> {
        Records::new(self.file(), &self.words)
    }
}

/// The entity text.
impl<B: AsRef<[u8]>> MapOf<B> {
    /// The bytes of the entity text: a part of the file, from its section's offset through the first
    /// zero byte or to the file's end. Of a map that was loaded it is the section, at most 65,536 bytes;
    /// on a map record made by hand it may be of any length, and it refuses with 23 where a section that
    /// is not empty starts at or past the file's end.
    ///
    /// ```
    /// # let file = std::fs::read(concat!(env!("CARGO_MANIFEST_DIR"), "/../../maps/smallest.bsp")).unwrap();
    /// let map = bsp29::Map::load(&file)?;
    /// assert_eq!(map.entities()?, [0]);
    /// # Ok::<(), bsp29::Refusal>(())
    /// ```
    pub fn entities(&self) -> Result<&[u8], Refusal> {
        let [at, length] = ffi::entities(self.file(), &self.words)?.map(|word| word as usize);
        // an empty text may lie past the file's end
        Ok(self.file().get(at..at.saturating_add(length)).unwrap_or(&[]))
    }

    /// The entity text without its zero byte. Refuses with 23 or 9 on a map record made by hand.
    ///
    /// ```
    /// # let file = std::fs::read(concat!(env!("CARGO_MANIFEST_DIR"), "/../../maps/rooms.bsp")).unwrap();
    /// let map = bsp29::Map::load(&file)?;
    /// assert!(map.entity_text()?.contains("\"classname\" \"worldspawn\""));
    /// # Ok::<(), bsp29::Refusal>(())
    /// ```
    pub fn entity_text(&self) -> Result<&str, Refusal> {
        let bytes = self.entities()?;
        let text = std::str::from_utf8(bytes.strip_suffix(&[0]).unwrap_or(bytes));
        text.map_err(|_| Refusal::EntityTextNotUtf8)
    }
}

/// Hulls, points and segments.
impl<B: AsRef<[u8]>> MapOf<B> {
    /// A hull of a model: 0 for points, 1 for a player, 2 for larger ones. Refuses with 20 for a hull
    /// above 2 or a model outside its table, and with 23 on a map record made by hand where the model's
    /// own record cannot be read; the models before it are not looked at.
    ///
    /// ```
    /// # let file = std::fs::read(concat!(env!("CARGO_MANIFEST_DIR"), "/../../maps/rooms.bsp")).unwrap();
    /// use bsp29::{NodeTable, Refusal};
    ///
    /// let map = bsp29::Map::load(&file)?;
    /// let hull = map.hull(0, 1)?;
    /// assert_eq!(hull.table(), NodeTable::Clip);
    /// assert_eq!(hull.mins(), [-16.0, -16.0, -24.0]);
    /// assert_eq!((hull.nodes(), hull.height()), (0, 0));
    /// assert_eq!(map.hull(0, 3), Err(Refusal::NoSuchRecord));
    /// # Ok::<(), Refusal>(())
    /// ```
    pub fn hull(&self, model: usize, index: usize) -> Result<Hull, Refusal> {
        ffi::hull(self.file(), &self.words, model as u64, index as u64).map(Hull::from_words)
    }

    /// The same with a hall's own body sizes: `mins` and `maxs` of hulls 1 and 2 are theirs, hull 0 has
    /// zeros still, and everything else is as in [`hull`](MapOf::hull), its refusals too. Contents, leaves and
    /// traces do not depend on the sizes. Sizes made by hand are taken as they are.
    ///
    /// ```
    /// # let maps = concat!(env!("CARGO_MANIFEST_DIR"), "/../../maps");
    /// # let bytes = std::fs::read(format!("{maps}/hall.sizes")).unwrap();
    /// # let file = std::fs::read(format!("{maps}/rooms.bsp")).unwrap();
    /// use bsp29::{BodySizes, Refusal};
    ///
    /// let map = bsp29::Map::load(&file)?;
    /// let sizes = BodySizes::parse(&bytes)?;
    /// let hull = map.hull_with(&sizes, 0, 2)?;
    /// let (mins, maxs) = (sizes.hull_2.mins, sizes.hull_2.maxs);
    /// assert_eq!(hull, map.hull(0, 2)?.with_bounds(mins, maxs));
    /// assert_eq!(map.hull_with(&sizes, 0, 0)?.maxs(), [0.0; 3]);
    /// assert_eq!(map.hull_with(&sizes, 0, 3), Err(Refusal::NoSuchRecord));
    /// # Ok::<(), Refusal>(())
    /// ```
    pub fn hull_with(
        &self,
        sizes: &BodySizes,
        model: usize,
        index: usize,
    ) -> Result<Hull, Refusal> {
        ffi::hull_sized(self.file(), &self.words, &sizes.words(), model as u64, index as u64)
            .map(Hull::from_words)
    }

    /// What is at a point of a hull, and how many nodes were entered.
    ///
    /// ```
    /// # let file = std::fs::read(concat!(env!("CARGO_MANIFEST_DIR"), "/../../maps/rooms.bsp")).unwrap();
    /// use bsp29::Contents;
    ///
    /// let map = bsp29::Map::load(&file)?;
    /// let hull = map.hull(0, 0)?;
    /// assert_eq!(map.contents(&hull, [-64.0, 0.0, 0.0])?.0, Contents::Empty);
    /// assert_eq!(map.contents(&hull, [-64.0, 0.0, -40.0])?.0, Contents::Water);
    /// assert_eq!(map.contents(&hull, [120.0, 0.0, -60.0])?.0, Contents::Solid);
    /// # Ok::<(), bsp29::Refusal>(())
    /// ```
    #[inline]
    pub fn contents(&self, hull: &Hull, point: [f32; 3]) -> Result<(Contents, u64), Refusal> {
        ffi::contents(self.file(), &self.words, hull.words(), &point)
            .map(|[code, visits]| (Contents::of(code), visits))
    }

    /// What is at each of up to 1,024 points of a hull, in their order, and how often a node was read:
    /// once for all points that come to it the same way. From a root that passed
    /// [`tree_check`](MapOf::tree_check) that is the number of different nodes that the points meet.
    ///
    /// Where every point is answered, each answer is that of [`contents`](MapOf::contents); else this
    /// refuses as `contents` does of the first point that it refuses. More than 1,024 points are 24,
    /// before everything else. No points: no reads, and no refusal for the root.
    ///
    /// ```
    /// # let file = std::fs::read(concat!(env!("CARGO_MANIFEST_DIR"), "/../../maps/rooms.bsp")).unwrap();
    /// use bsp29::{Contents, Map, Refusal};
    ///
    /// let map = Map::load(&file)?;
    /// let hull = map.hull(0, 0)?;
    /// let points = [[-64.0, 0.0, 0.0], [-64.0, 0.0, -40.0], [-64.0, 0.0, 0.0], [120.0, 0.0, -60.0]];
    /// let (contents, reads) = map.contents_at_points(&hull, &points)?;
    /// assert_eq!(contents, [Contents::Empty, Contents::Water, Contents::Empty, Contents::Solid]);
    /// let visits: u64 = points.iter().map(|p| map.contents(&hull, *p).unwrap().1).sum();
    /// assert!(reads < visits);
    /// assert_eq!(map.contents_at_points(&hull, &[])?.1, 0);
    /// assert_eq!(map.contents_at_points(&hull, &[[0.0; 3]; 1025]), Err(Refusal::NotPoints));
    /// # Ok::<(), Refusal>(())
    /// ```
    pub fn contents_at_points(
        &self,
        hull: &Hull,
        points: &[[f32; 3]],
    ) -> Result<(Vec<Contents>, u64), Refusal> {
        let mut codes = vec![0; points.len().min(MOST_POINTS)];
        let reads =
            ffi::contents_points(self.file(), &self.words, hull.words(), points, &mut codes)?;
        Ok((codes.into_iter().map(|code| Contents::of(code as u64)).collect(), reads))
    }

    /// The leaf that a point of the world is in, and how many nodes were entered.
    ///
    /// ```
    /// # let file = std::fs::read(concat!(env!("CARGO_MANIFEST_DIR"), "/../../maps/rooms.bsp")).unwrap();
    /// let map = bsp29::Map::load(&file)?;
    /// assert_eq!(map.find_leaf([-64.0, 0.0, 0.0])?, (1, 9));
    /// assert_eq!(map.find_leaf([300.0, 0.0, 0.0])?, (0, 1));
    /// # Ok::<(), bsp29::Refusal>(())
    /// ```
    #[inline]
    pub fn find_leaf(&self, point: [f32; 3]) -> Result<(usize, u64), Refusal> {
        self.find_leaf_from(0, point)
    }

    /// The same from any render node on, as the root of another model.
    ///
    /// ```
    /// # let file = std::fs::read(concat!(env!("CARGO_MANIFEST_DIR"), "/../../maps/rooms.bsp")).unwrap();
    /// let map = bsp29::Map::load(&file)?;
    /// let door = map.models().get(1)?;
    /// assert_eq!(map.find_leaf_from(door.hull_roots[0], [0.0, 0.0, 0.0])?.0, 0);
    /// assert_eq!(map.find_leaf_from(door.hull_roots[0], [9.0, 0.0, 0.0])?.0, 5);
    /// # Ok::<(), bsp29::Refusal>(())
    /// ```
    #[inline]
    pub fn find_leaf_from(&self, root: usize, point: [f32; 3]) -> Result<(usize, u64), Refusal> {
        ffi::find_leaf(self.file(), &self.words, root as u64, &point)
            .map(|[leaf, visits]| (leaf as usize, visits))
    }

    /// What a point meets that moves from `start` to `end` through a hull. The trace goes through
    /// leaves of the same contents, and out of solid ones. It follows the engine richter to the letter:
    /// where the segment crosses a node's plane, the part before the plane is traced first, and if that
    /// part ends within a leaf further down, the trace ends there, at the plane, as
    /// [`Terminal`](crate::TraceEnd::Terminal), and what lies behind is not looked at. So a terminal
    /// end is no obstacle, and it need not be the segment's end: nothing was met up to there, and the
    /// rest of the segment was not looked at.
    ///
    /// Tracing on from a terminal end to the same segment's end may stand still, as the last example
    /// shows: a caller who does so in a loop must stop where the end does not move. What a whole shot
    /// meets is what [`trace_line`](MapOf::trace_line) answers.
    ///
    /// From a root that passed [`tree_check`](MapOf::tree_check) it enters no node twice. Over other
    /// nodes it ends too, but it may take long.
    ///
    /// ```
    /// # let file = std::fs::read(concat!(env!("CARGO_MANIFEST_DIR"), "/../../maps/rooms.bsp")).unwrap();
    /// use bsp29::{Contents, TraceEnd};
    ///
    /// let map = bsp29::Map::load(&file)?;
    /// let hull = map.hull(0, 1)?;
    ///
    /// // against the wall beside the doorway
    /// let trace = map.trace(&hull, [-64.0, 64.0, 0.0], [64.0, 64.0, 0.0])?;
    /// assert_eq!((trace.end, trace.contents), ([-24.0, 64.0, 0.0], Contents::Empty));
    /// let TraceEnd::Boundary { plane, .. } = trace.kind else { panic!() };
    /// assert_eq!((plane.normal, plane.dist), ([-1.0, 0.0, 0.0], 24.0));
    ///
    /// // through the doorway: nothing is met up to x = 24, and nothing from there on
    /// let trace = map.trace(&hull, [-64.0, 0.0, 0.0], [64.0, 0.0, 0.0])?;
    /// assert_eq!((trace.end, trace.kind), ([24.0, 0.0, 0.0], TraceEnd::Terminal));
    /// let trace = map.trace(&hull, trace.end, [64.0, 0.0, 0.0])?;
    /// assert_eq!((trace.end, trace.kind), ([64.0, 0.0, 0.0], TraceEnd::Terminal));
    ///
    /// // the other way, as a point: the trace from where the first one ended ends there again
    /// let hull = map.hull(0, 0)?;
    /// let trace = map.trace(&hull, [0.0, -32.0, 0.0], [-112.0, -32.0, 0.0])?;
    /// assert_eq!((trace.end, trace.kind), ([-8.0, -32.0, 0.0], TraceEnd::Terminal));
    /// let again = map.trace(&hull, trace.end, [-112.0, -32.0, 0.0])?;
    /// assert_eq!((again.end, again.kind), (trace.end, TraceEnd::Terminal));
    /// # Ok::<(), bsp29::Refusal>(())
    /// ```
    #[inline]
    pub fn trace(&self, hull: &Hull, start: [f32; 3], end: [f32; 3]) -> Result<Trace, Refusal> {
        ffi::trace(self.file(), &self.words, hull.words(), &both(start, end), Trace::of)
    }

    /// What a whole shot meets: the line from `start` to `end` through a hull, by the published rule of id
    /// Software's `world.c`. The fraction is along the whole line; an impact lies 0.03125 before its
    /// plane, on the side that the line came from.
    ///
    /// On a map that was loaded, from a root that passed [`tree_check`](MapOf::tree_check), it is never
    /// refused. Time: a step a node that the line goes through, and at each plane that it crosses a look
    /// for contents, at most as many steps as the tree is high.
    ///
    /// ```
    /// # let file = std::fs::read(concat!(env!("CARGO_MANIFEST_DIR"), "/../../maps/rooms.bsp")).unwrap();
    /// let map = bsp29::Map::load(&file)?;
    /// let hull = map.hull(0, 1)?;
    ///
    /// // against the wall beside the doorway, which `trace` meets at x = -24
    /// let line = map.trace_line(&hull, [-64.0, 64.0, 0.0], [64.0, 64.0, 0.0])?;
    /// assert_eq!((line.end, line.fraction), ([-24.03125, 64.0, 0.0], 39.96875 / 128.0));
    /// assert_eq!((line.normal, line.dist), ([-1.0, 0.0, 0.0], 24.0));
    ///
    /// // through the doorway: `trace` ends at x = 24, where it looks no further
    /// let line = map.trace_line(&hull, [-64.0, 0.0, 0.0], [64.0, 0.0, 0.0])?;
    /// assert_eq!((line.end, line.fraction), ([64.0, 0.0, 0.0], 1.0));
    /// assert!(line.in_open && !line.all_solid && !line.start_solid);
    /// # Ok::<(), bsp29::Refusal>(())
    /// ```
    #[inline]
    pub fn trace_line(
        &self,
        hull: &Hull,
        start: [f32; 3],
        end: [f32; 3],
    ) -> Result<LineTrace, Refusal> {
        ffi::trace_line(self.file(), &self.words, hull.words(), &both(start, end), LineTrace::of)
    }

    /// The nodes that [`contents`](MapOf::contents) enters, in order.
    ///
    /// ```
    /// # let file = std::fs::read(concat!(env!("CARGO_MANIFEST_DIR"), "/../../maps/rooms.bsp")).unwrap();
    /// let map = bsp29::Map::load(&file)?;
    /// let hull = map.hull(0, 0)?;
    /// assert_eq!(map.contents_nodes(&hull, [64.0, 0.0, 0.0])?, [0, 1, 2, 3, 4, 5, 6, 7]);
    /// # Ok::<(), bsp29::Refusal>(())
    /// ```
    pub fn contents_nodes(&self, hull: &Hull, point: [f32; 3]) -> Result<Vec<u32>, Refusal> {
        let mut list = self.list(hull.table());
        let count = ffi::contents_nodes(self.file(), &self.words, hull.words(), &point, &mut list)?;
        list.truncate(count as usize);
        Ok(list)
    }

    /// The nodes that [`find_leaf_from`](MapOf::find_leaf_from) enters, in order.
    ///
    /// ```
    /// # let file = std::fs::read(concat!(env!("CARGO_MANIFEST_DIR"), "/../../maps/rooms.bsp")).unwrap();
    /// let map = bsp29::Map::load(&file)?;
    /// assert_eq!(map.find_leaf_nodes(0, [0.0, 200.0, 0.0])?, [0, 1, 2]);
    /// # Ok::<(), bsp29::Refusal>(())
    /// ```
    pub fn find_leaf_nodes(&self, root: usize, point: [f32; 3]) -> Result<Vec<u32>, Refusal> {
        let mut list = self.list(NodeTable::Render);
        let count = ffi::find_leaf_nodes(self.file(), &self.words, root as u64, &point, &mut list)?;
        list.truncate(count as usize);
        Ok(list)
    }

    /// The nodes that [`trace`](MapOf::trace) enters, in order. Refuses with 22 where they are more than
    /// the table holds: some are entered twice then, and the root does not pass
    /// [`tree_check`](MapOf::tree_check).
    ///
    /// ```
    /// # let file = std::fs::read(concat!(env!("CARGO_MANIFEST_DIR"), "/../../maps/rooms.bsp")).unwrap();
    /// let map = bsp29::Map::load(&file)?;
    /// let hull = map.hull(0, 0)?;
    /// let (start, end) = ([-64.0, 64.0, 0.0], [64.0, 64.0, 0.0]);
    /// let nodes = map.trace_nodes(&hull, start, end)?;
    /// assert_eq!(nodes.len() as u64, map.trace(&hull, start, end)?.visits);
    /// # Ok::<(), bsp29::Refusal>(())
    /// ```
    pub fn trace_nodes(
        &self,
        hull: &Hull,
        start: [f32; 3],
        end: [f32; 3],
    ) -> Result<Vec<u32>, Refusal> {
        let mut list = self.list(hull.table());
        let count = self.trace_nodes_into(hull, start, end, &mut list)?;
        list.truncate(count);
        Ok(list)
    }

    /// The same into a list of the caller's: it answers how many were entered and leaves the rest of
    /// the list as it is. Refuses with 22, last of all, where the list is too short.
    ///
    /// ```
    /// # let file = std::fs::read(concat!(env!("CARGO_MANIFEST_DIR"), "/../../maps/rooms.bsp")).unwrap();
    /// use bsp29::{Hull, Map, Refusal};
    ///
    /// let map = Map::load(&file)?;
    /// let hull = Hull::for_bounds([-1.0; 3], [1.0; 3])?;
    /// let (start, end) = ([-3.0, 0.0, 0.0], [5.0, 0.0, 0.0]);
    /// let mut list = [9; 8];
    /// assert_eq!(map.trace_nodes_into(&hull, start, end, &mut list)?, 6);
    /// assert_eq!(list[6..], [9, 9]);
    /// let short = map.trace_nodes_into(&hull, start, end, &mut list[..5]);
    /// assert_eq!(short, Err(Refusal::ListTooShort));
    /// # Ok::<(), Refusal>(())
    /// ```
    pub fn trace_nodes_into(
        &self,
        hull: &Hull,
        start: [f32; 3],
        end: [f32; 3],
        list: &mut [u32],
    ) -> Result<usize, Refusal> {
        let segment = both(start, end);
        ffi::trace_nodes(self.file(), &self.words, hull.words(), &segment, list)
            .map(|count| count as usize)
    }

    /// A list as long as a table may be.
    fn list<T: Copy + Default>(&self, table: NodeTable) -> Vec<T> {
        vec![T::default(); self.nodes(table).min(MOST_NODES)]
    }
}

/// Visibility and the tree check.
impl<B: AsRef<[u8]>> MapOf<B> {
    /// The leaves that can be seen from a leaf, lowest first. A byte of the row stands for eight
    /// leaves, from leaf 1 on, its lowest bit first; a zero byte and its follower n stand for 8 n leaves
    /// that are not seen. A byte is read while the number of its first leaf is below `leaf_count`; for a
    /// whole row that is the leaf count of model 0, plus 1. Only numbers below `leaf_count` are listed.
    /// Leaf 0 and a leaf without a row see none.
    ///
    /// Refuses with 20 for a leaf outside its table, 23 on a map record made by hand, and 33 where the
    /// row lies outside the visibility data.
    ///
    /// ```
    /// # let file = std::fs::read(concat!(env!("CARGO_MANIFEST_DIR"), "/../../maps/rooms.bsp")).unwrap();
    /// let map = bsp29::Map::load(&file)?;
    /// let leaf_count = map.models().get(0)?.leaf_count + 1;
    /// assert_eq!(map.visible_leaves(2, leaf_count)?, [1, 2]);
    /// assert_eq!(map.visible_leaves(4, leaf_count)?, [1, 3, 4]);
    /// assert!(map.visible_leaves(0, leaf_count)?.is_empty());
    /// # Ok::<(), bsp29::Refusal>(())
    /// ```
    pub fn visible_leaves(&self, leaf: usize, leaf_count: usize) -> Result<Vec<u32>, Refusal> {
        let mut list = vec![0; self.most_in_row().min(leaf_count)];
        let count = self.visible_leaves_into(leaf, leaf_count, &mut list)?;
        list.truncate(count);
        Ok(list)
    }

    /// The same into a list of the caller's: it answers how many there are and leaves the rest of the
    /// list as it is. Refuses with 22, last of all, where the list is too short.
    ///
    /// ```
    /// # let file = std::fs::read(concat!(env!("CARGO_MANIFEST_DIR"), "/../../maps/rooms.bsp")).unwrap();
    /// use bsp29::{Map, Refusal};
    ///
    /// let map = Map::load(&file)?;
    /// let mut list = [0; 8];
    /// let count = map.visible_leaves_into(4, 5, &mut list)?;
    /// assert_eq!(list[..count], [1, 3, 4]);
    /// assert_eq!(map.visible_leaves_into(4, 5, &mut list[..2]), Err(Refusal::ListTooShort));
    /// # Ok::<(), Refusal>(())
    /// ```
    pub fn visible_leaves_into(
        &self,
        leaf: usize,
        leaf_count: usize,
        list: &mut [u32],
    ) -> Result<usize, Refusal> {
        ffi::pvs(self.file(), &self.words, leaf as u64, leaf_count as u64, list)
            .map(|count| count as usize)
    }

    /// The leaves that at least one of up to 16 players sees, from the players' leaves: lowest first and
    /// each once. A leaf is listed exactly if [`visible_leaves`](MapOf::visible_leaves) lists it for one of
    /// the players. No players see none.
    ///
    /// Refuses with 25 for more than 16 players, and then with the first refusal of
    /// [`visible_leaves`](MapOf::visible_leaves) in the players' order.
    ///
    /// ```
    /// # let file = std::fs::read(concat!(env!("CARGO_MANIFEST_DIR"), "/../../maps/rooms.bsp")).unwrap();
    /// use bsp29::{Map, Refusal};
    ///
    /// let map = Map::load(&file)?;
    /// let leaf_count = map.models().get(0)?.leaf_count + 1;
    /// assert_eq!(map.visible_to_team(&[2, 4], leaf_count)?, [1, 2, 3, 4]);
    /// assert_eq!(map.visible_to_team(&[4, 0, 4], leaf_count)?, [1, 3, 4]);
    /// assert!(map.visible_to_team(&[], leaf_count)?.is_empty());
    /// assert_eq!(map.visible_to_team(&[2; 17], leaf_count), Err(Refusal::TooManyPlayers));
    /// assert_eq!(map.visible_to_team(&[2, 999], leaf_count), Err(Refusal::NoSuchRecord));
    /// # Ok::<(), Refusal>(())
    /// ```
    pub fn visible_to_team(
        &self,
        leaves: &[usize],
        leaf_count: usize,
    ) -> Result<Vec<u32>, Refusal> {
        let most = leaves.len().min(MOST_PLAYERS) * self.most_in_row();
        let mut list = vec![0; most.min(leaf_count)];
        let count = self.visible_to_team_into(leaves, leaf_count, &mut list)?;
        list.truncate(count);
        Ok(list)
    }

    /// The same into a list of the caller's: it answers how many there are and leaves the rest of the
    /// list as it is. Refuses with 22, last of all, where the list is too short.
    ///
    /// ```
    /// # let file = std::fs::read(concat!(env!("CARGO_MANIFEST_DIR"), "/../../maps/rooms.bsp")).unwrap();
    /// use bsp29::{Map, Refusal};
    ///
    /// let map = Map::load(&file)?;
    /// let mut list = [0; 8];
    /// let count = map.visible_to_team_into(&[2, 4], 5, &mut list)?;
    /// assert_eq!(list[..count], [1, 2, 3, 4]);
    /// assert_eq!(map.visible_to_team_into(&[2, 4], 5, &mut list[..3]), Err(Refusal::ListTooShort));
    /// # Ok::<(), Refusal>(())
    /// ```
    pub fn visible_to_team_into(
        &self,
        leaves: &[usize],
        leaf_count: usize,
        list: &mut [u32],
    ) -> Result<usize, Refusal> {
        // one player more than are answered is enough to be refused
        let mut asked = [0; MOST_PLAYERS + 1];
        let players = leaves.len().min(asked.len());
        for (leaf, number) in leaves.iter().zip(&mut asked) {
            *number = *leaf as u64;
        }
        ffi::pvs_team(self.file(), &self.words, &asked[..players], leaf_count as u64, list)
            .map(|count| count as usize)
    }

    /// How many leaves a row lists at most: a byte of it 8, and the row lies in the visibility data.
    fn most_in_row(&self) -> usize {
        let bytes = self.words[2 * Section::Visibility.number() as usize + 1] as usize;
        8 * bytes.min(MOST_VISIBILITY).min(self.file().len())
    }

    /// The height of the tree from a root of a node table. Where it answers, every index in that tree
    /// is in range, no node is reached by two ways and none is deeper than 512: in a map that was
    /// loaded, every walk and trace from there is answered, whatever its floats, and enters no node
    /// twice. It says nothing of other roots ([`find_leaf`](MapOf::find_leaf) starts at render node 0) and
    /// nothing of visibility rows.
    ///
    /// Refuses with 30, 34, 32 or 23 at the first node that breaks this, front before back; before that
    /// with 22 for a table above 32,767 nodes, which only a map record made by hand can name.
    ///
    /// ```
    /// # let file = std::fs::read(concat!(env!("CARGO_MANIFEST_DIR"), "/../../maps/rooms.bsp")).unwrap();
    /// use bsp29::{Map, NodeTable, Refusal};
    ///
    /// let map = Map::load(&file)?;
    /// assert_eq!(map.tree_check(NodeTable::Render, 0)?, 10);
    /// assert_eq!(map.tree_check(NodeTable::Render, 999), Err(Refusal::IndexOutsideTable));
    /// # Ok::<(), Refusal>(())
    /// ```
    pub fn tree_check(&self, table: NodeTable, root: usize) -> Result<usize, Refusal> {
        let mut marks: Vec<u8> = self.list(table);
        ffi::tree_check(self.file(), &self.words, table.number(), root as u64, &mut marks)
            .map(|height| height as usize)
    }

    /// The tree check of a hull's root, and the hull with the true size of that root's tree: how many
    /// [`nodes`](Hull::nodes) it has and its [`height`](Hull::height). A box keeps zeros. The other
    /// fields are those of the hull, and no other answer depends on the two.
    ///
    /// Refuses as [`tree_check`](MapOf::tree_check) does.
    ///
    /// ```
    /// # let file = std::fs::read(concat!(env!("CARGO_MANIFEST_DIR"), "/../../maps/rooms.bsp")).unwrap();
    /// use bsp29::{Hull, Map, Refusal};
    ///
    /// let map = Map::load(&file)?;
    /// let hull = map.hull(0, 1)?;
    /// assert_eq!((hull.node_count(), hull.nodes(), hull.height()), (32, 0, 0));
    /// let checked = map.hull_check(&hull)?;
    /// assert_eq!((checked.node_count(), checked.nodes(), checked.height()), (32, 11, 10));
    ///
    /// assert_eq!(map.hull_check(&hull.with_root(999)), Err(Refusal::IndexOutsideTable));
    ///
    /// let bounds = Hull::for_bounds([-1.0; 3], [1.0; 3])?;
    /// assert_eq!(map.hull_check(&bounds)?, bounds);
    /// # Ok::<(), Refusal>(())
    /// ```
    pub fn hull_check(&self, hull: &Hull) -> Result<Hull, Refusal> {
        let mut marks: Vec<u8> = self.list(hull.table());
        ffi::hull_check(self.file(), &self.words, hull.words(), &mut marks).map(Hull::from_words)
    }

    /// Whether a map may go on the rota: one call before a stranger's map is played.
    ///
    /// It checks every face with its edges, the face ranges of leaves and models, the models' leaves,
    /// the visibility row of every leaf, and the trees of hulls 0 to 2 of every model and of render node
    /// 0. Where it passes, every later question to a map that was loaded is answered: contents and
    /// traces in these hulls, leaf lookups, the same from any other root that passes
    /// [`tree_check`](MapOf::tree_check), and the visibility of every leaf with a leaf count up to the
    /// number of leaves. On a map record made by hand such a question may still be refused with 23,
    /// where a record cannot be read, but never with 30 to 34.
    ///
    /// Refuses with the first check that fails: 35 for a reference outside its table or a row that is not
    /// whole, 23 for a record that it must read, or a tree's own number (30, 32, 34); before that with 22
    /// for a table above 32,767 nodes, which only a map record made by hand can name.
    ///
    /// ```
    /// # let file = std::fs::read(concat!(env!("CARGO_MANIFEST_DIR"), "/../../maps/rooms.bsp")).unwrap();
    /// use bsp29::{Map, Refusal};
    ///
    /// let map = Map::load(&file)?;
    /// map.accept()?;
    ///
    /// // the smallest map that loads has no leaf, and its model names one
    /// # let file = std::fs::read(concat!(env!("CARGO_MANIFEST_DIR"), "/../../maps/smallest.bsp")).unwrap();
    /// let smallest = Map::load(&file)?;
    /// assert_eq!(smallest.accept(), Err(Refusal::NotAcceptable));
    /// # Ok::<(), Refusal>(())
    /// ```
    pub fn accept(&self) -> Result<(), Refusal> {
        let larger = match self.nodes(NodeTable::Render) < self.nodes(NodeTable::Clip) {
            true => NodeTable::Clip,
            false => NodeTable::Render,
        };
        ffi::accept(self.file(), &self.words, &mut self.list::<u8>(larger))
    }

    /// The contents that a point of a box may have, for one who is known only to be somewhere in it.
    /// Each plane sends the box to the side on which its eight corners lie, or to both. Every point in
    /// the box, its bounds counted, has contents of the set; a box of one point has that point's
    /// contents alone. The set may also hold contents that no point of the box has.
    ///
    /// Refuses with 28 for a bound that is not finite or a minimum above its maximum, then as
    /// [`tree_check`](MapOf::tree_check) does of the hull's root.
    ///
    /// ```
    /// # let file = std::fs::read(concat!(env!("CARGO_MANIFEST_DIR"), "/../../maps/rooms.bsp")).unwrap();
    /// use bsp29::{Contents, Map, Refusal};
    ///
    /// let map = Map::load(&file)?;
    /// let hull = map.hull(0, 0)?;
    /// let set = map.contents_box(&hull, [-70.0, -4.0, -4.0], [-58.0, 4.0, 4.0])?;
    /// assert!(set.is_only(Contents::Empty));
    /// let set = map.contents_box(&hull, [-70.0, -4.0, -400.0], [-58.0, 4.0, 4.0])?;
    /// assert!(set.holds(Contents::Empty) && set.holds(Contents::Solid));
    /// assert_eq!(map.contents_box(&hull, [1.0; 3], [0.0; 3]), Err(Refusal::NotABox));
    /// # Ok::<(), Refusal>(())
    /// ```
    pub fn contents_box(
        &self,
        hull: &Hull,
        mins: [f32; 3],
        maxs: [f32; 3],
    ) -> Result<ContentsSet, Refusal> {
        let mut marks: Vec<u8> = self.list(hull.table());
        ffi::contents_box(self.file(), &self.words, hull.words(), &both(mins, maxs), &mut marks)
            .map(ContentsSet::of)
    }

    /// The nodes of a root's tree in walking order: the front child right after its parent, the back
    /// child after the whole front part. Contents and traces by them are those by the file.
    ///
    /// Refuses as [`tree_check`](MapOf::tree_check) does; then with 23 for a leaf's record; a box has no
    /// nodes in the file, and is refused with 20.
    ///
    /// ```
    /// # let file = std::fs::read(concat!(env!("CARGO_MANIFEST_DIR"), "/../../maps/rooms.bsp")).unwrap();
    /// let map = bsp29::Map::load(&file)?;
    /// let hull = map.hull(0, 1)?;
    /// let ordered = map.order(hull.table(), hull.root())?;
    /// assert_eq!(ordered.nodes().len() % 3, 0);
    /// let (start, end) = ([-64.0, 64.0, 0.0], [64.0, 64.0, 0.0]);
    /// assert_eq!(ordered.contents(start)?, map.contents(&hull, start)?);
    /// assert_eq!(ordered.trace(start, end)?, map.trace(&hull, start, end)?);
    /// # Ok::<(), bsp29::Refusal>(())
    /// ```
    pub fn order(&self, table: NodeTable, root: usize) -> Result<Ordered<'_>, Refusal> {
        let mut marks: Vec<u8> = self.list(table);
        let mut list = vec![0; 3 * marks.len()];
        let asked = (table.number(), root as u64);
        let nodes = ffi::order(self.file(), &self.words, asked, &mut marks, &mut list)?;
        list.truncate(3 * nodes as usize);
        Ok(self.ordered(list))
    }

    /// A table of nodes in walking order that a caller made, in threes: a plane's number, the front and
    /// the back child; a child is a place in nodes from 0, or a contents code negated. Numbers past the
    /// last whole three are not looked at.
    ///
    /// ```
    /// # let file = std::fs::read(concat!(env!("CARGO_MANIFEST_DIR"), "/../../maps/rooms.bsp")).unwrap();
    /// use bsp29::{Map, Refusal};
    ///
    /// let map = Map::load(&file)?;
    /// assert_eq!(map.ordered(vec![0, 1, -1]).contents([9999.0; 3]), Err(Refusal::IndexOutsideTable));
    /// assert_eq!(map.ordered(vec![-1, -1, -2]).contents([0.0; 3]), Err(Refusal::Unreadable));
    /// # Ok::<(), bsp29::Refusal>(())
    /// ```
    pub fn ordered(&self, nodes: Vec<i32>) -> Ordered<'_> {
        Ordered { file: self.file(), words: &self.words, nodes }
    }
}

/// Nodes in walking order ([`Map::order`](MapOf::order)), and walks and traces by them, with the map's planes.
#[derive(Clone)]
pub struct Ordered<'a> {
    file: &'a [u8],
    words: &'a ffi::MapWords,
    nodes: Vec<i32>,
}

/// The nodes; not the file.
impl fmt::Debug for Ordered<'_> {
    fn fmt(&self, f: &mut fmt::Formatter<'_>) -> fmt::Result {
        f.debug_struct("Ordered").field("nodes", &self.nodes).finish_non_exhaustive()
    }
}

impl Ordered<'_> {
    /// The nodes, in threes: the plane's number, the front and the back child.
    pub fn nodes(&self) -> &[i32] {
        &self.nodes
    }

    /// The contents at a point, from the first node on, and how many nodes were entered. As
    /// [`Map::contents`](MapOf::contents); of nodes that a caller made it refuses with 30, 31 and 23.
    #[inline]
    pub fn contents(&self, point: [f32; 3]) -> Result<(Contents, u64), Refusal> {
        ffi::order_contents(self.file, self.words, &self.nodes, 0, &point)
            .map(|[code, visits]| (Contents::of(code), visits))
    }

    /// What a point meets that moves from `start` to `end`, from the first node on. As [`Map::trace`](MapOf::trace); of
    /// nodes that a caller made it refuses with 30, 32 and 23.
    #[inline]
    pub fn trace(&self, start: [f32; 3], end: [f32; 3]) -> Result<Trace, Refusal> {
        ffi::order_trace(self.file, self.words, &self.nodes, 0, &both(start, end), Trace::of)
    }
}

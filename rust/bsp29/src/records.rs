//! The records of a map, in Rust's types, and the tables that give them by their index.

use crate::words::{float, floats, offset, one_nan, shorts};
use crate::{ffi, Refusal, Section};
use std::fmt;
use std::iter::FusedIterator;
use std::marker::PhantomData;
use std::ops::Range;

/// The words of a record: those of the longest, a model, and zeros past those of a shorter one.
type Words = [u64; 20];

/// What a leaf holds.
///
/// ```
/// # let file = std::fs::read(concat!(env!("CARGO_MANIFEST_DIR"), "/../../maps/yard.bsp")).unwrap();
/// use bsp29::{Contents, Map};
///
/// let map = Map::load(&file)?;
/// let hull = map.hull(0, 0)?;
/// assert_eq!(map.contents(&hull, [0.0, 0.0, 0.0])?.0, Contents::Empty);
/// assert_eq!(map.contents(&hull, [0.0, 0.0, 100.0])?.0, Contents::Sky);
/// assert_eq!(map.contents(&hull, [0.0, 0.0, 300.0])?.0, Contents::Solid);
/// # Ok::<(), bsp29::Refusal>(())
/// ```
#[derive(Copy, Clone, Debug, PartialEq, Eq, Hash)]
#[non_exhaustive]
pub enum Contents {
    /// Nothing.
    Empty = 1,
    /// Rock.
    Solid = 2,
    /// Water.
    Water = 3,
    /// Slime.
    Slime = 4,
    /// Lava.
    Lava = 5,
    /// The sky of an open-air map. It is not solid: a trace goes through it.
    Sky = 6,
    /// Water that flows along x.
    Current0 = 9,
    /// Water that flows along y.
    Current90 = 10,
    /// Water that flows against x.
    Current180 = 11,
    /// Water that flows against y.
    Current270 = 12,
    /// Water that flows up.
    CurrentUp = 13,
    /// Water that flows down.
    CurrentDown = 14,
}

impl Contents {
    /// The code of these contents: a file has it negated.
    ///
    /// ```
    /// assert_eq!(bsp29::Contents::Water.code(), 3);
    /// assert_eq!(bsp29::Contents::Sky.code(), 6);
    /// assert_eq!(bsp29::Contents::Current0.code(), 9);
    /// ```
    pub fn code(self) -> u32 {
        self as u32
    }

    /// The contents of a code; none for another number than those of [`code`](Contents::code).
    ///
    /// ```
    /// use bsp29::Contents;
    ///
    /// assert_eq!(Contents::from_code(6), Some(Contents::Sky));
    /// assert_eq!(Contents::from_code(7), None);
    /// ```
    #[inline]
    pub fn from_code(code: u32) -> Option<Contents> {
        Some(match code {
            1 => Contents::Empty,
            2 => Contents::Solid,
            3 => Contents::Water,
            4 => Contents::Slime,
            5 => Contents::Lava,
            6 => Contents::Sky,
            9 => Contents::Current0,
            10 => Contents::Current90,
            11 => Contents::Current180,
            12 => Contents::Current270,
            13 => Contents::CurrentUp,
            14 => Contents::CurrentDown,
            _ => return None,
        })
    }

    /// The contents of a code that the library gave: it gives those of `code` alone, and another would
    /// count as solid.
    #[inline]
    pub(crate) fn of(code: u64) -> Contents {
        u32::try_from(code).ok().and_then(Contents::from_code).unwrap_or(Contents::Solid)
    }
}

/// The name of the contents, in words.
///
/// ```
/// use bsp29::Contents;
///
/// assert_eq!(Contents::Water.to_string(), "water");
/// assert_eq!(Contents::Current270.to_string(), "current against y");
/// ```
impl fmt::Display for Contents {
    fn fmt(&self, f: &mut fmt::Formatter<'_>) -> fmt::Result {
        f.pad(match self {
            Contents::Empty => "empty",
            Contents::Solid => "solid",
            Contents::Water => "water",
            Contents::Slime => "slime",
            Contents::Lava => "lava",
            Contents::Sky => "sky",
            Contents::Current0 => "current along x",
            Contents::Current90 => "current along y",
            Contents::Current180 => "current against x",
            Contents::Current270 => "current against y",
            Contents::CurrentUp => "current up",
            Contents::CurrentDown => "current down",
        })
    }
}

/// A set of contents, as [`Map::contents_box`](crate::MapOf::contents_box) answers it.
#[derive(Copy, Clone, Debug, PartialEq, Eq, Hash)]
pub struct ContentsSet(u32);

impl ContentsSet {
    #[inline]
    pub(crate) fn of(bits: u64) -> ContentsSet {
        ContentsSet(bits as u32)
    }

    /// Bit n stands for the code n of [`Contents::code`].
    pub fn bits(self) -> u32 {
        self.0
    }

    /// Whether these contents are in the set.
    pub fn holds(self, contents: Contents) -> bool {
        self.0 >> contents.code() & 1 == 1
    }

    /// Whether these contents are all that is in the set.
    pub fn is_only(self, contents: Contents) -> bool {
        self.0 == 1 << contents.code()
    }
}

/// How a plane stands.
#[derive(Copy, Clone, Debug, PartialEq, Eq, Hash)]
pub enum PlaneKind {
    /// Its normal is the x axis.
    X,
    /// Its normal is the y axis.
    Y,
    /// Its normal is the z axis.
    Z,
    /// It has a normal of its own.
    Normal,
}

/// A plane: the points whose product with the normal is `dist`.
#[derive(Copy, Clone, Debug, PartialEq)]
pub struct Plane {
    /// How it stands.
    pub kind: PlaneKind,
    /// The normal; of an axis 1 and zeros.
    pub normal: [f32; 3],
    /// The distance from the origin along the normal.
    pub dist: f32,
}

impl Plane {
    /// The plane of five words: kind, normal, distance.
    #[inline]
    pub(crate) fn of(words: &[u64], at: usize) -> Plane {
        let kind = match words[at] {
            0 => PlaneKind::X,
            1 => PlaneKind::Y,
            2 => PlaneKind::Z,
            _ => PlaneKind::Normal,
        };
        Plane { kind, normal: floats(words, at + 1), dist: float(words[at + 4]) }
    }
}

/// What richter's `math.rs` has of a plane and a point. These functions are plain Rust and not among what
/// is proved; `tests/richter.rs` holds them to stored answers of richter.
impl Plane {
    /// How far a point lies in front of the plane; negative behind it. Of an axis the other two
    /// coordinates do not count.
    ///
    /// ```
    /// # let file = std::fs::read(concat!(env!("CARGO_MANIFEST_DIR"), "/../../maps/rooms.bsp")).unwrap();
    /// use bsp29::{Map, Side};
    ///
    /// let map = Map::load(&file)?;
    /// let plane = map.planes().get(map.render_nodes().get(0)?.plane)?;
    /// assert_eq!((plane.normal, plane.dist), ([1.0, 0.0, 0.0], 128.0));
    /// assert_eq!(plane.point_dist([100.0, 7.0, 7.0]), -28.0);
    /// assert_eq!(plane.point_side([100.0, 7.0, 7.0]), Side::Back);
    /// assert_eq!(plane.point_side([128.0, 0.0, 0.0]), Side::Front);
    /// # Ok::<(), bsp29::Refusal>(())
    /// ```
    pub fn point_dist(&self, point: [f32; 3]) -> f32 {
        one_nan(self.along(point) - self.dist)
    }

    /// The side of the plane that a point is on: the front for one on it, the back for a NaN. Of an axis
    /// it compares, so that an infinity equal to the distance is the front, whose
    /// [`point_dist`](Plane::point_dist) is a NaN.
    pub fn point_side(&self, point: [f32; 3]) -> Side {
        let front = match self.kind {
            PlaneKind::Normal => self.along(point) - self.dist >= 0.0,
            _ => self.along(point) >= self.dist,
        };
        if front {
            Side::Front
        } else {
            Side::Back
        }
    }

    /// The product of a point and the normal.
    fn along(&self, point: [f32; 3]) -> f32 {
        match self.kind {
            PlaneKind::X => point[0],
            PlaneKind::Y => point[1],
            PlaneKind::Z => point[2],
            PlaneKind::Normal => {
                let normal = self.normal;
                point[0] * normal[0] + point[1] * normal[1] + point[2] * normal[2]
            }
        }
    }
}

/// A corner of faces.
#[derive(Copy, Clone, Debug, PartialEq)]
pub struct Vertex {
    /// Where it is.
    pub point: [f32; 3],
}

/// A child of a render node.
#[derive(Copy, Clone, Debug, PartialEq, Eq, Hash)]
pub enum RenderChild {
    /// A render node.
    Node(usize),
    /// A leaf.
    Leaf(usize),
}

impl RenderChild {
    fn of(tag: u64, number: u64) -> RenderChild {
        match tag {
            0 => RenderChild::Node(number as usize),
            _ => RenderChild::Leaf(number as usize),
        }
    }
}

/// A render node.
#[derive(Copy, Clone, Debug, PartialEq, Eq, Hash)]
pub struct RenderNode {
    /// Its plane.
    pub plane: usize,
    /// What lies in front of the plane.
    pub front: RenderChild,
    /// What lies behind it.
    pub back: RenderChild,
    /// Its box's minimum.
    pub min: [i16; 3],
    /// Its box's maximum.
    pub max: [i16; 3],
    /// Its first face.
    pub face: usize,
    /// How many faces it has.
    pub face_count: usize,
}

/// A texture by its number in the file.
#[derive(Copy, Clone, Debug, PartialEq, Eq, Hash)]
pub struct Texture {
    /// Its name of 16 bytes, lowered, with zeros from the first zero on.
    pub name: [u8; 16],
    /// Its width.
    pub width: u32,
    /// Its height.
    pub height: u32,
}

impl Texture {
    /// The texture of five words; none for an absent one.
    #[inline]
    pub(crate) fn of(words: &[u64; 5]) -> Option<Texture> {
        let mut name = [0; 16];
        name[..8].copy_from_slice(&words[1].to_le_bytes());
        name[8..].copy_from_slice(&words[2].to_le_bytes());
        (words[0] != 0).then_some(Texture { name, width: words[3] as u32, height: words[4] as u32 })
    }
}

/// A group of an animated texture's frames.
#[derive(Copy, Clone, Debug, PartialEq, Eq, Hash)]
pub enum FrameGroup {
    /// Frames 0 to 9.
    Primary,
    /// Frames a to j.
    Alternate,
}

/// How a texture lies on faces.
#[derive(Copy, Clone, Debug, PartialEq)]
pub struct TextureInfo {
    /// The direction of s.
    pub s: [f32; 3],
    /// What is added to s.
    pub s_offset: f32,
    /// The direction of t.
    pub t: [f32; 3],
    /// What is added to t.
    pub t_offset: f32,
    /// The new number of the texture: [`Map::texture_static`](crate::MapOf::texture_static),
    /// [`Map::texture_frame`](crate::MapOf::texture_frame).
    pub texture: usize,
    /// Whether the faces may extend over more than 2,000 units: sky and water.
    pub special: bool,
}

/// A side of a plane: that of a face, or of a point.
#[derive(Copy, Clone, Debug, PartialEq, Eq, Hash)]
pub enum Side {
    /// The side that the normal points to.
    Front,
    /// The other one.
    Back,
}

/// A face.
#[derive(Copy, Clone, Debug, PartialEq, Eq, Hash)]
pub struct Face {
    /// Its plane.
    pub plane: usize,
    /// The side of the plane.
    pub side: Side,
    /// Its first entry of the edge list.
    pub edge: usize,
    /// How many entries it has there.
    pub edge_count: usize,
    /// Its texture info.
    pub texture_info: usize,
    /// Its light styles.
    pub light_styles: [u8; 4],
    /// Where its lightmap begins in the lightmap section.
    pub lightmap: Option<usize>,
    /// The least s and t of its corners, rounded down to a multiple of 16, in 16 bits.
    pub texture_mins: [i16; 2],
    /// How far it extends along s and t: a multiple of 16, in 16 bits.
    pub extents: [i16; 2],
}

/// A child of a clip node.
#[derive(Copy, Clone, Debug, PartialEq, Eq, Hash)]
pub enum ClipChild {
    /// A clip node.
    Node(usize),
    /// A leaf of these contents.
    Contents(Contents),
}

impl ClipChild {
    fn of(tag: u64, number: u64) -> ClipChild {
        match tag {
            0 => ClipChild::Node(number as usize),
            _ => ClipChild::Contents(Contents::of(number)),
        }
    }
}

/// A clip node.
#[derive(Copy, Clone, Debug, PartialEq, Eq, Hash)]
pub struct ClipNode {
    /// Its plane.
    pub plane: usize,
    /// What lies in front of the plane.
    pub front: ClipChild,
    /// What lies behind it.
    pub back: ClipChild,
}

/// How loud each sound is in a leaf.
#[derive(Copy, Clone, Debug, PartialEq, Eq, Hash)]
pub struct Sounds {
    /// Water.
    pub water: u8,
    /// Sky.
    pub sky: u8,
    /// Slime.
    pub slime: u8,
    /// Lava.
    pub lava: u8,
}

/// A leaf: a part of space of the same contents.
#[derive(Copy, Clone, Debug, PartialEq, Eq, Hash)]
pub struct Leaf {
    /// What it holds.
    pub contents: Contents,
    /// Where its row begins in the visibility section.
    pub visibility: Option<usize>,
    /// Its box's minimum.
    pub min: [i16; 3],
    /// Its box's maximum.
    pub max: [i16; 3],
    /// Its first entry of the face list.
    pub face_list: usize,
    /// How many entries it has there.
    pub face_list_count: usize,
    /// Its sounds.
    pub sounds: Sounds,
}

/// An entry of the face list: a face of a leaf.
#[derive(Copy, Clone, Debug, PartialEq, Eq, Hash)]
pub struct FaceListEntry {
    /// The face.
    pub face: usize,
}

/// An edge between two vertices.
#[derive(Copy, Clone, Debug, PartialEq, Eq, Hash)]
pub struct Edge {
    /// The vertices.
    pub vertices: [usize; 2],
}

/// The direction in which a face goes along an edge.
#[derive(Copy, Clone, Debug, PartialEq, Eq, Hash)]
pub enum Direction {
    /// From the first vertex to the second.
    Forward,
    /// From the second vertex to the first.
    Backward,
}

/// An entry of the edge list: an edge of a face.
#[derive(Copy, Clone, Debug, PartialEq, Eq, Hash)]
pub struct EdgeListEntry {
    /// The direction.
    pub direction: Direction,
    /// The edge.
    pub edge: usize,
}

/// A model: the world is model 0.
#[derive(Copy, Clone, Debug, PartialEq)]
pub struct Model {
    /// Its box's minimum: the file's less 1.
    pub min: [f32; 3],
    /// Its box's maximum: the file's plus 1.
    pub max: [f32; 3],
    /// Its origin.
    pub origin: [f32; 3],
    /// The roots of its hulls: a render node and two clip nodes.
    pub hull_roots: [usize; 3],
    /// The map's clip nodes less each root, modulo 2^64.
    pub hull_node_counts: [usize; 3],
    /// Its first leaf: the leaf counts of the models before it, added up.
    pub leaf: usize,
    /// How many leaves it has.
    pub leaf_count: usize,
    /// Its first face.
    pub face: usize,
    /// How many faces it has.
    pub face_count: usize,
    /// Its last leaf: `leaf` and `leaf_count` added.
    pub last_leaf: usize,
}

mod sealed {
    /// A record by its section and its words.
    pub trait Sealed {
        /// The number of its section.
        const SECTION: u32;
        /// The record of its words.
        fn of(words: &[u64; 20]) -> Self;
    }
}
use sealed::Sealed;

/// A kind of record: [`Plane`], [`Vertex`], [`RenderNode`], [`TextureInfo`], [`Face`], [`ClipNode`],
/// [`Leaf`], [`FaceListEntry`], [`Edge`], [`EdgeListEntry`] or [`Model`].
pub trait Record: Sealed {}
impl<R: Sealed> Record for R {}

impl Sealed for Plane {
    const SECTION: u32 = 1;
    fn of(words: &Words) -> Plane {
        Plane::of(words, 0)
    }
}

impl Sealed for Vertex {
    const SECTION: u32 = 3;
    fn of(words: &Words) -> Vertex {
        Vertex { point: floats(words, 0) }
    }
}

impl Sealed for RenderNode {
    const SECTION: u32 = 5;
    fn of(words: &Words) -> RenderNode {
        RenderNode {
            plane: words[0] as usize,
            front: RenderChild::of(words[1], words[2]),
            back: RenderChild::of(words[3], words[4]),
            min: shorts(words, 5),
            max: shorts(words, 8),
            face: words[11] as usize,
            face_count: words[12] as usize,
        }
    }
}

impl Sealed for TextureInfo {
    const SECTION: u32 = 6;
    fn of(words: &Words) -> TextureInfo {
        TextureInfo {
            s: floats(words, 0),
            s_offset: float(words[3]),
            t: floats(words, 4),
            t_offset: float(words[7]),
            texture: words[8] as usize,
            special: words[9] != 0,
        }
    }
}

impl Sealed for Face {
    const SECTION: u32 = 7;
    fn of(words: &Words) -> Face {
        Face {
            plane: words[0] as usize,
            side: if words[1] == 0 { Side::Front } else { Side::Back },
            edge: words[2] as usize,
            edge_count: words[3] as usize,
            texture_info: words[4] as usize,
            light_styles: [words[5] as u8, words[6] as u8, words[7] as u8, words[8] as u8],
            lightmap: offset(words[9]),
            texture_mins: [words[10] as i16, words[11] as i16],
            extents: [words[12] as i16, words[13] as i16],
        }
    }
}

impl Sealed for ClipNode {
    const SECTION: u32 = 9;
    fn of(words: &Words) -> ClipNode {
        ClipNode {
            plane: words[0] as usize,
            front: ClipChild::of(words[1], words[2]),
            back: ClipChild::of(words[3], words[4]),
        }
    }
}

impl Sealed for Leaf {
    const SECTION: u32 = 10;
    fn of(words: &Words) -> Leaf {
        Leaf {
            contents: Contents::of(words[0]),
            visibility: offset(words[1]),
            min: shorts(words, 2),
            max: shorts(words, 5),
            face_list: words[8] as usize,
            face_list_count: words[9] as usize,
            sounds: Sounds {
                water: words[10] as u8,
                sky: words[11] as u8,
                slime: words[12] as u8,
                lava: words[13] as u8,
            },
        }
    }
}

impl Sealed for FaceListEntry {
    const SECTION: u32 = 11;
    fn of(words: &Words) -> FaceListEntry {
        FaceListEntry { face: words[0] as usize }
    }
}

impl Sealed for Edge {
    const SECTION: u32 = 12;
    fn of(words: &Words) -> Edge {
        Edge { vertices: [words[0] as usize, words[1] as usize] }
    }
}

impl Sealed for EdgeListEntry {
    const SECTION: u32 = 13;
    fn of(words: &Words) -> EdgeListEntry {
        EdgeListEntry {
            direction: if words[0] == 0 { Direction::Forward } else { Direction::Backward },
            edge: words[1] as usize,
        }
    }
}

impl Sealed for Model {
    const SECTION: u32 = 14;
    fn of(words: &Words) -> Model {
        let numbers =
            |at: usize| [words[at] as usize, words[at + 1] as usize, words[at + 2] as usize];
        Model {
            min: floats(words, 0),
            max: floats(words, 3),
            origin: floats(words, 6),
            hull_roots: numbers(9),
            hull_node_counts: numbers(12),
            leaf: words[15] as usize,
            leaf_count: words[16] as usize,
            face: words[17] as usize,
            face_count: words[18] as usize,
            last_leaf: words[19] as usize,
        }
    }
}

/// The records of one kind in a map. Nothing is copied: each is read from the file when it is asked
/// for.
///
/// ```
/// # let file = std::fs::read(concat!(env!("CARGO_MANIFEST_DIR"), "/../../maps/rooms.bsp")).unwrap();
/// let map = bsp29::Map::load(&file)?;
/// for leaf in map.leaves() {
///     println!("{}", leaf?.contents);
/// }
/// // of a map that was loaded none is refused
/// for leaf in map.leaves().values() {
///     println!("{}", leaf.contents);
/// }
/// # Ok::<(), bsp29::Refusal>(())
/// ```
#[derive(Copy, Clone)]
pub struct Records<'m, R> {
    file: &'m [u8],
    words: &'m ffi::MapWords,
    kind: PhantomData<R>,
}

impl<'m, R: Record> Records<'m, R> {
    pub(crate) fn new(file: &'m [u8], words: &'m ffi::MapWords) -> Records<'m, R> {
        Records { file, words, kind: PhantomData }
    }

    /// How many there are.
    ///
    /// ```
    /// # let file = std::fs::read(concat!(env!("CARGO_MANIFEST_DIR"), "/../../maps/rooms.bsp")).unwrap();
    /// let map = bsp29::Map::load(&file)?;
    /// assert_eq!(map.models().len(), 2);
    /// # Ok::<(), bsp29::Refusal>(())
    /// ```
    pub fn len(&self) -> usize {
        count(self.words, R::SECTION)
    }

    /// Whether there is none.
    ///
    /// ```
    /// # let file = std::fs::read(concat!(env!("CARGO_MANIFEST_DIR"), "/../../maps/smallest.bsp")).unwrap();
    /// let map = bsp29::Map::load(&file)?;
    /// assert!(map.planes().is_empty());
    /// # Ok::<(), bsp29::Refusal>(())
    /// ```
    pub fn is_empty(&self) -> bool {
        self.len() == 0
    }

    /// The record of an index. Refuses with 20 at or past [`len`](Records::len), and with 23 where a
    /// map record made by hand leads astray; below `len` of a map that was loaded it never refuses.
    ///
    /// A model reads the models before it, a face its edges; the others take the same time each.
    ///
    /// ```
    /// # let file = std::fs::read(concat!(env!("CARGO_MANIFEST_DIR"), "/../../maps/rooms.bsp")).unwrap();
    /// use bsp29::{Contents, Refusal};
    ///
    /// let map = bsp29::Map::load(&file)?;
    /// assert_eq!(map.leaves().get(2)?.contents, Contents::Water);
    /// assert_eq!(map.leaves().get(6), Err(Refusal::NoSuchRecord));
    /// # Ok::<(), bsp29::Refusal>(())
    /// ```
    pub fn get(&self, index: usize) -> Result<R, Refusal> {
        ffi::record(self.file, self.words, R::SECTION, index as u64).map(|words| R::of(&words))
    }

    /// Each record in order, or from the last to the first with `rev`.
    ///
    /// ```
    /// # let file = std::fs::read(concat!(env!("CARGO_MANIFEST_DIR"), "/../../maps/rooms.bsp")).unwrap();
    /// let map = bsp29::Map::load(&file)?;
    /// let faces: Result<Vec<_>, _> = map.faces().iter().collect();
    /// assert_eq!(faces?[1].edge, 4);
    /// let (last, number) = map.faces().iter().zip(0..).last().unwrap();
    /// assert_eq!(map.faces().iter().rev().next(), Some(last));
    /// assert_eq!(map.faces().iter().len(), number + 1);
    /// # Ok::<(), bsp29::Refusal>(())
    /// ```
    pub fn iter(&self) -> RecordIter<'m, R> {
        let records = Records { file: self.file, words: self.words, kind: PhantomData };
        RecordIter { records, left: 0..self.len() }
    }

    /// The records of these indices, in order. Refuses with 20 where they are not all in the table.
    ///
    /// ```
    /// # let file = std::fs::read(concat!(env!("CARGO_MANIFEST_DIR"), "/../../maps/rooms.bsp")).unwrap();
    /// let map = bsp29::Map::load(&file)?;
    /// let door = map.models().get(1)?;
    /// let faces = map.faces().range(door.face..door.face + door.face_count)?;
    /// assert_eq!(faces.len(), door.face_count);
    /// assert!(map.faces().range(1..9999).is_err());
    /// # Ok::<(), bsp29::Refusal>(())
    /// ```
    pub fn range(&self, indices: Range<usize>) -> Result<RecordIter<'m, R>, Refusal> {
        if indices.start > indices.end || indices.end > self.len() {
            return Err(Refusal::NoSuchRecord);
        }
        Ok(RecordIter { left: indices, ..self.iter() })
    }

    /// The records themselves, in order. Of a map that was loaded these are all of them; where a map
    /// record made by hand leads astray, they end before the first that is refused.
    ///
    /// ```
    /// # let file = std::fs::read(concat!(env!("CARGO_MANIFEST_DIR"), "/../../maps/rooms.bsp")).unwrap();
    /// let map = bsp29::Map::load(&file)?;
    /// assert_eq!(map.models().values().map(|model| model.face_count).sum::<usize>(), map.faces().len());
    /// assert_eq!(map.vertices().values().rev().count(), map.vertices().len());
    /// # Ok::<(), bsp29::Refusal>(())
    /// ```
    pub fn values(&self) -> RecordValues<'m, R> {
        RecordValues { results: self.iter() }
    }
}

/// How many records the section of a number has; 0 where there is none of the number.
pub(crate) fn count(words: &ffi::MapWords, section: u32) -> usize {
    ffi::count(words, section).map_or(0, |count| count as usize)
}

/// The section and how many records it has; not the file.
impl<R: Record> fmt::Debug for Records<'_, R> {
    fn fmt(&self, f: &mut fmt::Formatter<'_>) -> fmt::Result {
        let section = Section::from_number(R::SECTION).map_or("", Section::name);
        f.debug_struct("Records").field("of", &section).field("len", &self.len()).finish()
    }
}

impl<'m, R: Record> IntoIterator for Records<'m, R> {
    type Item = Result<R, Refusal>;
    type IntoIter = RecordIter<'m, R>;
    fn into_iter(self) -> RecordIter<'m, R> {
        self.iter()
    }
}

impl<'m, R: Record> IntoIterator for &Records<'m, R> {
    type Item = Result<R, Refusal>;
    type IntoIter = RecordIter<'m, R>;
    fn into_iter(self) -> RecordIter<'m, R> {
        self.iter()
    }
}

/// Records one after the other, each or why it is refused: of [`Records::iter`].
#[derive(Clone)]
pub struct RecordIter<'m, R> {
    records: Records<'m, R>,
    left: Range<usize>,
}

impl<R: Record> fmt::Debug for RecordIter<'_, R> {
    fn fmt(&self, f: &mut fmt::Formatter<'_>) -> fmt::Result {
        f.debug_struct("RecordIter").field("of", &self.records).field("left", &self.left).finish()
    }
}

impl<R: Record> Iterator for RecordIter<'_, R> {
    type Item = Result<R, Refusal>;
    fn next(&mut self) -> Option<Self::Item> {
        self.left.next().map(|index| self.records.get(index))
    }
    fn size_hint(&self) -> (usize, Option<usize>) {
        self.left.size_hint()
    }
    fn nth(&mut self, n: usize) -> Option<Self::Item> {
        self.left.nth(n).map(|index| self.records.get(index))
    }
}

impl<R: Record> DoubleEndedIterator for RecordIter<'_, R> {
    fn next_back(&mut self) -> Option<Self::Item> {
        self.left.next_back().map(|index| self.records.get(index))
    }
    fn nth_back(&mut self, n: usize) -> Option<Self::Item> {
        self.left.nth_back(n).map(|index| self.records.get(index))
    }
}

impl<R: Record> ExactSizeIterator for RecordIter<'_, R> {}
impl<R: Record> FusedIterator for RecordIter<'_, R> {}

/// Records one after the other, up to the first that is refused: of [`Records::values`].
#[derive(Clone)]
pub struct RecordValues<'m, R> {
    results: RecordIter<'m, R>,
}

impl<R: Record> fmt::Debug for RecordValues<'_, R> {
    fn fmt(&self, f: &mut fmt::Formatter<'_>) -> fmt::Result {
        f.debug_struct("RecordValues").field("of", &self.results).finish()
    }
}

impl<R: Record> RecordValues<'_, R> {
    /// The record of a result; after a refusal there is none.
    fn value(&mut self, result: Option<Result<R, Refusal>>) -> Option<R> {
        let value = result?.ok();
        if value.is_none() {
            self.results.left = 0..0;
        }
        value
    }
}

impl<R: Record> Iterator for RecordValues<'_, R> {
    type Item = R;
    fn next(&mut self) -> Option<R> {
        let result = self.results.next();
        self.value(result)
    }
    fn size_hint(&self) -> (usize, Option<usize>) {
        (0, Some(self.results.len()))
    }
}

impl<R: Record> DoubleEndedIterator for RecordValues<'_, R> {
    fn next_back(&mut self) -> Option<R> {
        let result = self.results.next_back();
        self.value(result)
    }
}

impl<R: Record> FusedIterator for RecordValues<'_, R> {}

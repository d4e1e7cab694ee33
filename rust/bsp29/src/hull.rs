//! Hulls and traces.

use crate::words::{float, floats, one_nan};
use crate::{ffi, Contents, Plane, Refusal};
use std::fmt;

/// A table of nodes.
#[derive(Copy, Clone, Debug, PartialEq, Eq, Hash)]
pub enum NodeTable {
    /// The map's render nodes.
    Render,
    /// The map's clip nodes.
    Clip,
    /// The six nodes of a box, which reads no file.
    Box,
}

impl NodeTable {
    pub(crate) fn number(self) -> u32 {
        match self {
            NodeTable::Render => 0,
            NodeTable::Clip => 1,
            NodeTable::Box => 2,
        }
    }

    fn of(word: u64) -> NodeTable {
        match word {
            0 => NodeTable::Render,
            1 => NodeTable::Clip,
            _ => NodeTable::Box,
        }
    }
}

/// What something moves in: a table of nodes and its root there. It may be made by hand.
///
/// It is kept in the words that the calls take, so that a call hands them on as they are.
#[derive(Copy, Clone, PartialEq, Eq, Hash)]
pub struct Hull {
    words: ffi::HullWords,
}

impl Hull {
    /// A hull made by hand: this root of this table. Its size and that of its tree are zeros, which no call
    /// looks at but for a box, whose nodes are its size.
    ///
    /// ```
    /// # let file = std::fs::read(concat!(env!("CARGO_MANIFEST_DIR"), "/../../maps/rooms.bsp")).unwrap();
    /// use bsp29::{Hull, Map, NodeTable};
    ///
    /// let map = Map::load(&file)?;
    /// let world = map.hull(0, 1)?;
    /// let made = Hull::new(world.table(), world.root());
    /// let point = [-64.0, 0.0, 0.0];
    /// assert_eq!(map.contents(&made, point), map.contents(&world, point));
    /// # Ok::<(), bsp29::Refusal>(())
    /// ```
    pub fn new(table: NodeTable, root: usize) -> Hull {
        let mut words = [0; 11];
        words[0] = u64::from(table.number());
        words[1] = root as u64;
        Hull { words }
    }

    /// A box, solid within and empty outside. Refuses with 21 where a minimum is at or above its
    /// maximum. A box asks for no map: [`BoxHull`].
    ///
    /// ```
    /// use bsp29::{Hull, NodeTable, Refusal};
    ///
    /// let hull = Hull::for_bounds([-1.0; 3], [1.0; 3])?;
    /// assert_eq!(hull.table(), NodeTable::Box);
    /// assert_eq!((hull.nodes(), hull.height()), (0, 0));
    /// assert_eq!(Hull::for_bounds([0.0; 3], [1.0, 0.0, 1.0]), Err(Refusal::MinNotBelowMax));
    /// # Ok::<(), Refusal>(())
    /// ```
    pub fn for_bounds(mins: [f32; 3], maxs: [f32; 3]) -> Result<Hull, Refusal> {
        ffi::hull_of_box(&both(mins, maxs)).map(Hull::from_words)
    }

    /// The hull of these words (`enum bsp_hull_word` of `include/bsp29.h`). Calls refuse it with 20 where
    /// its table is none.
    ///
    /// ```
    /// use bsp29::Hull;
    ///
    /// let hull = Hull::for_bounds([-1.0; 3], [1.0; 3])?;
    /// assert_eq!(Hull::from_words(*hull.words()), hull);
    /// # Ok::<(), bsp29::Refusal>(())
    /// ```
    pub fn from_words(words: [u64; 11]) -> Hull {
        Hull { words }
    }

    /// Its words.
    #[inline]
    pub fn words(&self) -> &[u64; 11] {
        &self.words
    }

    /// The table of its nodes.
    pub fn table(&self) -> NodeTable {
        NodeTable::of(self.words[0])
    }

    /// The first node.
    pub fn root(&self) -> usize {
        self.words[1] as usize
    }

    /// How many nodes the Rust names here: the clip nodes less the root, which is not the size of the
    /// root's tree. No walk looks at it.
    pub fn node_count(&self) -> usize {
        self.words[2] as usize
    }

    /// The least corner of what moves, or of the box.
    pub fn mins(&self) -> [f32; 3] {
        floats(&self.words, 3)
    }

    /// The greatest one.
    pub fn maxs(&self) -> [f32; 3] {
        floats(&self.words, 6)
    }

    /// How many nodes the root's tree has, the root counted: filled by
    /// [`Map::hull_check`](crate::MapOf::hull_check), zero before it and in a box. No call looks at it.
    pub fn nodes(&self) -> usize {
        self.words[9] as usize
    }

    /// The height of that tree, likewise.
    pub fn height(&self) -> usize {
        self.words[10] as usize
    }

    /// The same with another root. The size of its tree is zero again.
    ///
    /// ```
    /// # let file = std::fs::read(concat!(env!("CARGO_MANIFEST_DIR"), "/../../maps/rooms.bsp")).unwrap();
    /// let map = bsp29::Map::load(&file)?;
    /// let hull = map.hull(0, 1)?;
    /// assert_eq!(hull.with_root(999).root(), 999);
    /// assert_eq!(hull.with_root(999).with_root(hull.root()), hull);
    /// # Ok::<(), bsp29::Refusal>(())
    /// ```
    pub fn with_root(self, root: usize) -> Hull {
        let mut words = self.words;
        words[1] = root as u64;
        words[9] = 0;
        words[10] = 0;
        Hull { words }
    }

    /// The same with other corners, which are not tested.
    ///
    /// ```
    /// # let file = std::fs::read(concat!(env!("CARGO_MANIFEST_DIR"), "/../../maps/rooms.bsp")).unwrap();
    /// let map = bsp29::Map::load(&file)?;
    /// let hull = map.hull(0, 1)?.with_bounds([-2.0; 3], [3.0; 3]);
    /// assert_eq!((hull.mins(), hull.maxs()), ([-2.0; 3], [3.0; 3]));
    /// # Ok::<(), bsp29::Refusal>(())
    /// ```
    pub fn with_bounds(self, mins: [f32; 3], maxs: [f32; 3]) -> Hull {
        let mut words = self.words;
        for (word, float) in words[3..9].iter_mut().zip(both(mins, maxs)) {
            *word = u64::from(float.to_bits());
        }
        Hull { words }
    }
}

impl fmt::Debug for Hull {
    fn fmt(&self, f: &mut fmt::Formatter<'_>) -> fmt::Result {
        f.debug_struct("Hull")
            .field("table", &self.table())
            .field("root", &self.root())
            .field("node_count", &self.node_count())
            .field("mins", &self.mins())
            .field("maxs", &self.maxs())
            .field("nodes", &self.nodes())
            .field("height", &self.height())
            .finish()
    }
}

/// The map record that is handed over with a box, which reads neither it nor a file.
const NO_MAP: ffi::MapWords = [0; 31];

/// A box, solid within and empty outside, which is asked without a map.
///
/// ```
/// use bsp29::{BoxHull, Contents};
///
/// let door = BoxHull::new([-8.0, -32.0, -64.0], [8.0, 32.0, 64.0])?;
/// assert_eq!(door.contents([0.0; 3])?.0, Contents::Solid);
/// let trace = door.trace([-40.0, 0.0, 0.0], [40.0, 0.0, 0.0])?;
/// assert_eq!(trace.end, [-8.0, 0.0, 0.0]);
/// assert!(!trace.is_terminal());
/// # Ok::<(), bsp29::Refusal>(())
/// ```
#[derive(Copy, Clone, Debug, PartialEq, Eq, Hash)]
pub struct BoxHull {
    hull: Hull,
}

impl BoxHull {
    /// The box between two corners. Refuses with 21 where a minimum is at or above its maximum (a NaN is
    /// neither); nothing that is asked of it later is refused.
    pub fn new(mins: [f32; 3], maxs: [f32; 3]) -> Result<BoxHull, Refusal> {
        Hull::for_bounds(mins, maxs).map(|hull| BoxHull { hull })
    }

    /// As a hull, for what takes one.
    pub fn hull(&self) -> &Hull {
        &self.hull
    }

    /// What is at a point, and how many of the six nodes were entered: as
    /// [`Map::contents`](crate::MapOf::contents).
    #[inline]
    pub fn contents(&self, point: [f32; 3]) -> Result<(Contents, u64), Refusal> {
        ffi::contents(&[], &NO_MAP, self.hull.words(), &point)
            .map(|[code, visits]| (Contents::of(code), visits))
    }

    /// What a moving point meets: as [`Map::trace`](crate::MapOf::trace).
    #[inline]
    pub fn trace(&self, start: [f32; 3], end: [f32; 3]) -> Result<Trace, Refusal> {
        ffi::trace(&[], &NO_MAP, self.hull.words(), &both(start, end), Trace::of)
    }

    /// What a whole shot meets: as [`Map::trace_line`](crate::MapOf::trace_line).
    ///
    /// ```
    /// let hull = bsp29::BoxHull::new([-1.0; 3], [1.0; 3])?;
    /// let line = hull.trace_line([-3.0, 0.0, 0.0], [5.0, 0.0, 0.0])?;
    /// assert_eq!((line.end, line.normal), ([-1.03125, 0.0, 0.0], [-1.0, 0.0, 0.0]));
    /// # Ok::<(), bsp29::Refusal>(())
    /// ```
    #[inline]
    pub fn trace_line(&self, start: [f32; 3], end: [f32; 3]) -> Result<LineTrace, Refusal> {
        ffi::trace_line(&[], &NO_MAP, self.hull.words(), &both(start, end), LineTrace::of)
    }
}

/// Two points, one after the other.
#[inline]
pub(crate) fn both(a: [f32; 3], b: [f32; 3]) -> ffi::Segment {
    [a[0], a[1], a[2], b[0], b[1], b[2]]
}

/// How a trace ends.
#[derive(Copy, Clone, Debug, PartialEq)]
pub enum TraceEnd {
    /// Within a leaf: nothing was met up to here. It is the segment's end, or a point before it behind
    /// which the trace did not look (see [`Map::trace`](crate::MapOf::trace)).
    Terminal,
    /// At a plane behind which the contents differ.
    Boundary {
        /// Where the plane was crossed, along the part of the segment that was left at its node:
        /// not along the whole segment.
        ratio: f32,
        /// The plane; its normal points to where the trace came from.
        plane: Plane,
    },
}

/// What a point meets that moves along a segment: it goes through leaves of the same contents, and
/// out of solid ones.
#[derive(Copy, Clone, Debug, PartialEq)]
pub struct Trace {
    /// Where it starts.
    pub start: [f32; 3],
    /// The ratio at which it starts.
    pub start_ratio: f32,
    /// Where it ends.
    pub end: [f32; 3],
    /// How it ends.
    pub kind: TraceEnd,
    /// What it went through.
    pub contents: Contents,
    /// Whether it started in a solid leaf.
    pub start_solid: bool,
    /// How many nodes were entered, at most 2^64 - 1.
    pub visits: u64,
}

/// What richter's `phys.rs` has of a trace. These functions are plain Rust and not among what is proved;
/// `tests/richter.rs` holds them to stored answers of richter.
impl Trace {
    /// A trace of its parts, which started solid if its contents are. It entered no node.
    ///
    /// ```
    /// use bsp29::{Contents, Trace, TraceEnd};
    ///
    /// let trace = Trace::new([0.0; 3], 0.0, [1.0; 3], TraceEnd::Terminal, Contents::Solid);
    /// assert!(trace.start_solid && trace.all_solid());
    /// ```
    pub fn new(
        start: [f32; 3],
        start_ratio: f32,
        end: [f32; 3],
        kind: TraceEnd,
        contents: Contents,
    ) -> Trace {
        let start_solid = contents == Contents::Solid;
        Trace { start, start_ratio, end, kind, contents, start_solid, visits: 0 }
    }

    /// This trace and one that goes on where it ended. Through the same contents they are one trace; out
    /// of a solid one the second's contents count, and the whole started solid; else this one is the
    /// answer, which ended where the contents differ. The visits of both are added, at most 2^64 - 1.
    ///
    /// Refuses with 19, where richter panics: this trace is terminal, or the other starts elsewhere than
    /// where it ends.
    ///
    /// ```
    /// # let file = std::fs::read(concat!(env!("CARGO_MANIFEST_DIR"), "/../../maps/rooms.bsp")).unwrap();
    /// # let plane = bsp29::Map::load(&file)?.planes().get(0)?;
    /// use bsp29::{Contents, Refusal, Trace, TraceEnd};
    ///
    /// let (start, middle, end) = ([0.0; 3], [1.0; 3], [2.0; 3]);
    /// let kind = TraceEnd::Boundary { ratio: 0.5, plane };
    /// let through = |contents| Trace::new(start, 0.0, middle, kind, contents);
    /// let rest = Trace::new(middle, 0.0, end, TraceEnd::Terminal, Contents::Empty);
    ///
    /// assert_eq!(through(Contents::Empty).join(rest)?.end, end);
    /// assert!(through(Contents::Solid).join(rest)?.start_solid);
    /// assert_eq!(through(Contents::Water).join(rest)?, through(Contents::Water));
    /// assert_eq!(rest.join(rest), Err(Refusal::CannotJoin));
    /// # Ok::<(), Refusal>(())
    /// ```
    pub fn join(self, other: Trace) -> Result<Trace, Refusal> {
        // arrays of floats are equal as floats are: no NaN equals another
        if self.is_terminal() || self.end != other.start {
            return Err(Refusal::CannotJoin);
        }
        let visits = self.visits.saturating_add(other.visits);
        if self.contents == other.contents {
            return Ok(Trace { end: other.end, kind: other.kind, visits, ..self });
        }
        if self.contents == Contents::Solid {
            let (end, kind, contents) = (other.end, other.kind, other.contents);
            return Ok(Trace { end, kind, contents, start_solid: true, visits, ..self });
        }
        Ok(Trace { visits, ..self })
    }

    /// The trace with its start and end moved by an offset; a plane that it met stays where it is.
    ///
    /// ```
    /// # let file = std::fs::read(concat!(env!("CARGO_MANIFEST_DIR"), "/../../maps/rooms.bsp")).unwrap();
    /// # let map = bsp29::Map::load(&file)?;
    /// // a door that stands 100 units from where the map has it
    /// let (hull, offset) = (map.hull(1, 0)?, [0.0, 100.0, 0.0]);
    /// let trace = map.trace(&hull, [-40.0, 0.0, 0.0], [40.0, 0.0, 0.0])?.adjust(offset);
    /// assert_eq!((trace.start, trace.end), ([-40.0, 100.0, 0.0], [-8.0, 100.0, 0.0]));
    /// # Ok::<(), bsp29::Refusal>(())
    /// ```
    pub fn adjust(self, offset: [f32; 3]) -> Trace {
        let moved = |point: [f32; 3]| [0, 1, 2].map(|axis| one_nan(point[axis] + offset[axis]));
        Trace { start: moved(self.start), end: moved(self.end), ..self }
    }

    /// Whether it ended within a leaf, and not at a plane behind which the contents differ.
    pub fn is_terminal(&self) -> bool {
        matches!(self.kind, TraceEnd::Terminal)
    }

    /// Whether it ended in what is solid, where it started. (`start_solid` says that it started in a solid
    /// leaf, and may have come out of it.)
    pub fn all_solid(&self) -> bool {
        self.contents == Contents::Solid
    }

    /// Whether it went through empty leaves.
    pub fn in_open(&self) -> bool {
        self.contents == Contents::Empty
    }

    /// Whether it went through what is neither empty nor solid.
    ///
    /// ```
    /// # let file = std::fs::read(concat!(env!("CARGO_MANIFEST_DIR"), "/../../maps/rooms.bsp")).unwrap();
    /// # let map = bsp29::Map::load(&file)?;
    /// let trace = map.trace(&map.hull(0, 0)?, [-64.0, 0.0, -40.0], [-60.0, 0.0, -41.0])?;
    /// assert!(trace.in_water() && trace.is_terminal());
    /// assert!(!trace.in_open() && !trace.all_solid() && !trace.start_solid);
    /// # Ok::<(), bsp29::Refusal>(())
    /// ```
    pub fn in_water(&self) -> bool {
        !self.in_open() && !self.all_solid()
    }

    /// The ratio of its end: 1 for a terminal one.
    ///
    /// ```
    /// # let file = std::fs::read(concat!(env!("CARGO_MANIFEST_DIR"), "/../../maps/smallest.bsp")).unwrap();
    /// # let map = bsp29::Map::load(&file)?;
    /// let hull = bsp29::Hull::for_bounds([-1.0; 3], [1.0; 3])?;
    /// let trace = map.trace(&hull, [-3.0, 0.0, 0.0], [5.0, 0.0, 0.0])?;
    /// assert_eq!(trace.ratio(), 0.5);
    /// let away = map.trace(&hull, [2.0, 0.0, 0.0], [5.0, 0.0, 0.0])?;
    /// assert_eq!(away.ratio(), 1.0);
    /// # Ok::<(), bsp29::Refusal>(())
    /// ```
    pub fn ratio(&self) -> f32 {
        match self.kind {
            TraceEnd::Terminal => 1.0,
            TraceEnd::Boundary { ratio, .. } => ratio,
        }
    }

    #[inline]
    pub(crate) fn of(words: &[u64; 17]) -> Trace {
        let kind = match words[10] {
            0 => TraceEnd::Terminal,
            _ => TraceEnd::Boundary { ratio: float(words[11]), plane: Plane::of(words, 12) },
        };
        Trace {
            start: floats(words, 3),
            start_ratio: float(words[6]),
            end: floats(words, 7),
            kind,
            contents: Contents::of(words[1]),
            start_solid: words[2] != 0,
            visits: words[0],
        }
    }
}

/// What a whole shot meets, as [`Map::trace_line`](crate::MapOf::trace_line) answers it.
#[derive(Copy, Clone, Debug, PartialEq)]
pub struct LineTrace {
    /// Where it ends, from 0 to 1 along the whole line, or a NaN. 1 if nothing was met, and also if the
    /// line never came out of the solid leaf that it starts in (`all_solid`).
    pub fraction: f32,
    /// The point there.
    pub end: [f32; 3],
    /// The normal of the plane that was met, to where the line came from; zeros if none was.
    pub normal: [f32; 3],
    /// The distance of that plane.
    pub dist: f32,
    /// No leaf that is not solid was traced into.
    pub all_solid: bool,
    /// A solid leaf was traced into.
    pub start_solid: bool,
    /// An empty leaf was traced into.
    pub in_open: bool,
    /// A leaf that is neither solid nor empty was traced into.
    pub in_water: bool,
}

impl LineTrace {
    #[inline]
    pub(crate) fn of(words: &[u64; 12]) -> LineTrace {
        LineTrace {
            fraction: float(words[0]),
            end: floats(words, 1),
            normal: floats(words, 4),
            dist: float(words[7]),
            all_solid: words[8] != 0,
            start_solid: words[9] != 0,
            in_open: words[10] != 0,
            in_water: words[11] != 0,
        }
    }
}

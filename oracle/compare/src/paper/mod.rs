//! Document 01 read as a plain program: loading, records by index, hulls, walks, traces,
//! visibility and the tree check, with the numbers of their refusals; and the requests of document
//! 02 that have landed, each from its own text.
//!
//! It knows nothing of the proved code. Where the document names the published Rust as the reference
//! and says no more (crossings, traces and their joining, the arithmetic of extents, a model's
//! leaf_id), it follows that text. The comparisons put it beside both sides: it answers where the
//! Rust cannot (map records made by hand, lent lists, the tree check), and wherever the Rust can, it
//! must say the same.
//!
//! - `fields`: little-endian fields at a position, each read refusing with 1
//! - `plane`: vectors and planes
//! - `records`: the records of each section, and each by its index
//! - `faces`: texture minimums and extents of a face
//! - `walk`: hulls, point contents, leaf lookup, traces
//! - `tree`: the tree check
//! - `vis`: visibility lists
//! - `load`: loading
//! - `textures`: the texture section, its groups and numbers (document 02, note 2)
//! - `boxes`: the contents that a box may meet (document 02, note 12)
//! - `bodies`: the hall's own body sizes (document 02, note 10)
//! - `team`: what a team can see (document 02, note 9)
//! - `accept`: whole-map acceptance (document 02, note 4)
//! - `points`: the contents of many points (document 02, note 7)
//! - `line`: whole-line traces (document 02, note 6)
//! - `order`: nodes in walking order, and walks and traces by them (document 02, note 11)
//! - `made`: made-up maps (document 02, note 14)
//! - `place`: where loading refuses a file (the words of `include/bsp29.h`)

pub mod accept;
pub mod bodies;
pub mod boxes;
pub mod faces;
pub mod fields;
pub mod line;
pub mod load;
pub mod made;
pub mod order;
pub mod place;
pub mod plane;
pub mod points;
pub mod records;
pub mod team;
pub mod textures;
pub mod tree;
pub mod vis;
pub mod walk;

/// An answer, or the number of a refusal.
pub type Answer<T> = Result<T, u32>;

/// The sections in the file's order.
pub const ENTITIES: usize = 0;
pub const PLANES: usize = 1;
pub const TEXTURES: usize = 2;
pub const VERTICES: usize = 3;
pub const VISIBILITY: usize = 4;
pub const RENDER_NODES: usize = 5;
pub const TEXINFOS: usize = 6;
pub const FACES: usize = 7;
pub const LIGHTMAPS: usize = 8;
pub const CLIP_NODES: usize = 9;
pub const LEAVES: usize = 10;
pub const FACELIST: usize = 11;
pub const EDGES: usize = 12;
pub const EDGELIST: usize = 13;
pub const MODELS: usize = 14;
pub const SECTIONS: usize = 15;

/// The words of a map record: offset and size of each section, then the texture count.
pub const MAP_WORDS: usize = 2 * SECTIONS + 1;

/// The bytes of one record of a section.
pub fn record_size(section: usize) -> u64 {
    match section {
        PLANES => 20,
        VERTICES => 12,
        RENDER_NODES => 24,
        TEXINFOS => 40,
        FACES => 20,
        CLIP_NODES => 8,
        LEAVES => 28,
        FACELIST => 2,
        EDGES => 4,
        EDGELIST => 4,
        MODELS => 64,
        _ => 1,
    }
}

/// The most records that a section may have.
pub fn limit(section: usize) -> Option<u64> {
    match section {
        PLANES => Some(8_192),
        VERTICES => Some(65_535),
        VISIBILITY => Some(1_048_576),
        RENDER_NODES | CLIP_NODES | LEAVES => Some(32_767),
        EDGES => Some(256_000),
        EDGELIST => Some(512_000),
        MODELS => Some(256),
        _ => None,
    }
}

/// The lent bytes and a map record, whoever made it.
#[derive(Copy, Clone)]
pub struct Map<'a> {
    pub file: &'a [u8],
    /// Offset and size of each section.
    pub sections: [(u64, u64); SECTIONS],
    pub texture_count: u64,
}

impl<'a> Map<'a> {
    /// None if the words are too few.
    pub fn new(file: &'a [u8], words: &[u32]) -> Option<Map<'a>> {
        if words.len() < MAP_WORDS {
            return None;
        }
        let mut sections = [(0, 0); SECTIONS];
        for (section, place) in sections.iter_mut().enumerate() {
            *place = (words[2 * section] as u64, words[2 * section + 1] as u64);
        }
        Some(Map { file, sections, texture_count: words[MAP_WORDS - 1] as u64 })
    }

    pub fn offset(&self, section: usize) -> u64 {
        self.sections[section].0
    }

    pub fn size(&self, section: usize) -> u64 {
        self.sections[section].1
    }

    /// Record counts round down.
    pub fn count(&self, section: usize) -> u64 {
        self.size(section) / record_size(section)
    }

    pub fn within_limit(&self, section: usize) -> bool {
        match limit(section) {
            None => true,
            Some(most) => self.count(section) <= most,
        }
    }

    /// Whether the whole section can be read; an empty one always can.
    pub fn section_readable(&self, section: usize) -> bool {
        let end = self.offset(section) + self.size(section);
        self.size(section) == 0 || (self.within_limit(section) && end <= self.file.len() as u64)
    }

    /// The entity text: its offset, and its length through the first zero byte or to the file's
    /// end, whatever the section's size. At or past the file's end there is nothing to read: a
    /// section that is not empty leads outside (23), and an empty one never does.
    pub fn entities(&self) -> Answer<[u64; 2]> {
        let at = self.offset(ENTITIES);
        let rest = self.file.get(at as usize..).unwrap_or(&[]);
        if rest.is_empty() && self.size(ENTITIES) > 0 {
            return Err(23);
        }
        let zero = rest.iter().position(|&byte| byte == 0);
        Ok([at, zero.map_or(rest.len(), |zero| zero + 1) as u64])
    }
}

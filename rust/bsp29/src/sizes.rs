//! The body sizes that a hall brings.

use crate::words::floats;
use crate::{ffi, Refusal};

/// How far a body reaches from its middle.
#[derive(Copy, Clone, Debug, PartialEq)]
pub struct Bounds {
    /// The least corner.
    pub mins: [f32; 3],
    /// The greatest one.
    pub maxs: [f32; 3],
}

impl Bounds {
    fn of(words: &ffi::SizesWords, at: usize) -> Bounds {
        Bounds { mins: floats(words, at), maxs: floats(words, at + 3) }
    }
}

/// A hall's own body sizes, which [`Map::hull_with`](crate::MapOf::hull_with) takes in place of the built-in
/// ones. They may be made by hand.
///
/// ```
/// use bsp29::{BodySizes, Map};
///
/// # let maps = concat!(env!("CARGO_MANIFEST_DIR"), "/../../maps");
/// # let bytes = std::fs::read(format!("{maps}/hall.sizes")).unwrap();
/// # let file = std::fs::read(format!("{maps}/rooms.bsp")).unwrap();
/// let sizes = BodySizes::parse(&bytes)?;
/// let map = Map::load(&file)?;
/// let hull = map.hull_with(&sizes, 0, 1)?;
/// assert_eq!(hull.mins(), [-20.0, -20.0, -30.0]);
///
/// // what is asked of a hull does not depend on them
/// let point = [-64.0, 0.0, 0.0];
/// assert_eq!(map.contents(&hull, point), map.contents(&map.hull(0, 1)?, point));
/// # Ok::<(), bsp29::Refusal>(())
/// ```
#[derive(Copy, Clone, Debug, PartialEq)]
pub struct BodySizes {
    /// The body of hull 1.
    pub hull_1: Bounds,
    /// The body of hull 2.
    pub hull_2: Bounds,
}

impl BodySizes {
    /// The sizes of a file: two fields in either order, each a byte of tag (1 for hull 1, 2 for hull 2),
    /// two bytes of length, the lowest first, which say 24, and six floats: mins, then maxs. Refuses with
    /// 26 for a field cut short, a wrong length, or an unknown, missing or repeated tag; and then, where
    /// the file has none of these anywhere, with 27 for a bound that is not finite or a minimum at or
    /// above its maximum.
    ///
    /// ```
    /// use bsp29::{BodySizes, Refusal};
    ///
    /// # let path = concat!(env!("CARGO_MANIFEST_DIR"), "/../../maps/hall.sizes");
    /// let mut bytes = std::fs::read(path).unwrap();
    /// let sizes = BodySizes::parse(&bytes)?;
    /// assert_eq!(sizes.hull_2.maxs, [40.0, 40.0, 80.5]);
    ///
    /// // the least x of hull 1 becomes an infinity, and then the file is cut, too
    /// bytes[3..7].copy_from_slice(&f32::NEG_INFINITY.to_le_bytes());
    /// assert_eq!(BodySizes::parse(&bytes), Err(Refusal::NotABody));
    /// assert_eq!(BodySizes::parse(&bytes[..53]), Err(Refusal::InvalidSizesFile));
    /// # Ok::<(), Refusal>(())
    /// ```
    pub fn parse(bytes: &[u8]) -> Result<BodySizes, Refusal> {
        let words = ffi::body_sizes(bytes)?;
        Ok(BodySizes { hull_1: Bounds::of(&words, 0), hull_2: Bounds::of(&words, 6) })
    }

    pub(crate) fn words(&self) -> ffi::SizesWords {
        let mut words = [0; 12];
        let Bounds { mins: one_mins, maxs: one_maxs } = self.hull_1;
        let Bounds { mins: two_mins, maxs: two_maxs } = self.hull_2;
        let floats = [one_mins, one_maxs, two_mins, two_maxs];
        for (word, float) in words.iter_mut().zip(floats.iter().flatten()) {
            *word = u64::from(float.to_bits());
        }
        words
    }
}

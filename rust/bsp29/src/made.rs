//! Made-up maps.

use crate::{ffi, Refusal};

/// The longest file of a made-up map: that of 500 nodes.
const MOST_BYTES: usize = 249 + 52 * 500;

/// The file of a made-up map, for load tests on maps that nobody drew: a chain of 1 to 500 nodes, each
/// with a plane of its own, as render nodes and as clip nodes. The same seed and number of nodes give the
/// same file, 249 bytes and 52 for each node.
///
/// Every such file loads and is accepted ([`Map::accept`](crate::Map::accept)), so contents, leaf lookups,
/// traces and visibility of the map are answered, whatever the floats.
///
/// Refuses with 29 for a number of nodes outside 1 to 500.
///
/// ```
/// use bsp29::{made_up, Map, NodeTable, Refusal};
///
/// let file = made_up(7, 100)?;
/// assert_eq!(file.len(), 249 + 52 * 100);
/// let map = Map::load(&file)?;
/// map.accept()?;
/// assert_eq!((map.planes().len(), map.clip_nodes().len()), (100, 100));
/// assert_eq!(map.tree_check(NodeTable::Clip, 0)?, 100);
///
/// // the first number is 7 * 1664525 + 1013904223, which is 1025555898
/// let plane = map.planes().get(0)?;
/// assert_eq!(plane.kind as u32, 1025555898 % 3);
/// assert_eq!(plane.dist, (1025555898 / 256 % 256) as f32 - 128.0);
///
/// assert_eq!(made_up(7, 501), Err(Refusal::NodeCountOutside));
/// # Ok::<(), Refusal>(())
/// ```
pub fn made_up(seed: u32, nodes: usize) -> Result<Vec<u8>, Refusal> {
    let mut buffer = vec![0; MOST_BYTES];
    let length = made_up_into(seed, nodes, &mut buffer)?;
    buffer.truncate(length);
    Ok(buffer)
}

/// [`made_up`] into a lent buffer, for callers who keep one: how long the file is at its front. Bytes past
/// the file are kept.
///
/// Refuses with 29 as `made_up` does, and then with 22 for a buffer that is too short, which stays as it
/// was; 26,249 bytes are always enough.
///
/// ```
/// use bsp29::{made_up, made_up_into, Refusal};
///
/// let mut buffer = [9; 400];
/// let length = made_up_into(7, 2, &mut buffer)?;
/// assert_eq!(buffer[..length], made_up(7, 2)?);
/// assert_eq!(buffer[length..], [9; 400 - 353]);
/// assert_eq!(made_up_into(7, 2, &mut buffer[..352]), Err(Refusal::ListTooShort));
/// # Ok::<(), Refusal>(())
/// ```
pub fn made_up_into(seed: u32, nodes: usize, buffer: &mut [u8]) -> Result<usize, Refusal> {
    ffi::made_up(seed, nodes as u64, buffer).map(|length| length as usize)
}

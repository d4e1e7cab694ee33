//! What a team can see: the lists of its players pooled.

use std::collections::BTreeSet;

use super::*;

/// The leaves that at least one of up to 16 players sees, in increasing order: 25 for more players,
/// then the first refusal in the players' order.
pub fn pvs_team(map: &Map, leaves: &[u64], leaf_count: u64) -> Answer<Vec<u32>> {
    if leaves.len() > 16 {
        return Err(25);
    }
    let mut pool = BTreeSet::new();
    for leaf in leaves {
        pool.extend(vis::get_pvs(map, *leaf, leaf_count)?);
    }
    Ok(pool.into_iter().collect())
}

//! Visibility lists.

use super::*;

/// The leaves visible from a leaf, for so many leaves: 20, 23 (the leaf, then the section), 33. Only
/// numbers below the leaf count are listed.
pub fn get_pvs(map: &Map, leaf: u64, leaf_count: u64) -> Answer<Vec<u32>> {
    if leaf == 0 {
        return Ok(Vec::new());
    }
    let offset = match map.leaf(leaf)?.vis_offset {
        None => return Ok(Vec::new()),
        Some(offset) => offset,
    };
    if !map.section_readable(VISIBILITY) {
        return Err(23);
    }
    if offset > map.size(VISIBILITY) {
        return Err(33);
    }
    row(map, offset, leaf_count)
}

fn row(map: &Map, offset: u64, leaf_count: u64) -> Answer<Vec<u32>> {
    let mut left =
        (offset..map.size(VISIBILITY)).map(|at| map.file[(map.offset(VISIBILITY) + at) as usize]);
    let mut next = || left.next().ok_or(33u32);
    let mut number = 1;
    let mut list = Vec::new();
    while number < leaf_count {
        match next()? {
            0 => number += 8 * next()? as u64,
            bits => {
                let set = (0..8).filter(|bit| bits >> bit & 1 == 1).map(|bit| number + bit);
                list.extend(set.filter(|leaf| *leaf < leaf_count).map(|leaf| leaf as u32));
                number += 8;
            }
        }
    }
    Ok(list)
}

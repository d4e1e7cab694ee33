//! Sky (document 02, note 1): contents that the published Rust refuses.

use crate::record::Tables;
use crate::Seed;

/// The contents code; a file has it negated.
pub const SKY: i32 = 6;

/// Makes about half of the leaves, of the ends of clip nodes or of both sky. False if there was none
/// to be made so.
pub fn plant(seed: &mut Seed, tables: &mut Tables) -> bool {
    let (in_leaves, in_clip_nodes) =
        [(true, false), (false, true), (true, true)][seed.below(3) as usize];
    let mut some = false;
    for leaf in tables.leaves.iter_mut().filter(|_| in_leaves) {
        if seed.once_in(2) {
            leaf.contents = -SKY;
            some = true;
        }
    }
    for child in
        tables.clip_nodes.iter_mut().filter(|_| in_clip_nodes).flat_map(|n| &mut n.children)
    {
        if *child < 0 && seed.once_in(2) {
            *child = -SKY as i16;
            some = true;
        }
    }
    some
}

/// The same tables with another code in the place of sky, one that they do not have yet and that is
/// neither Empty nor Solid; none if they have all of them.
pub fn renamed(tables: &Tables) -> Option<(Tables, i32)> {
    let children = tables.clip_nodes.iter().flat_map(|node| node.children).map(i32::from);
    let held: Vec<i32> = tables.leaves.iter().map(|leaf| leaf.contents).chain(children).collect();
    let code = [3, 4, 5, 9, 10, 11, 12, 13, 14].into_iter().find(|code| !held.contains(&-code))?;
    let mut copy = tables.clone();
    for leaf in copy.leaves.iter_mut().filter(|leaf| leaf.contents == -SKY) {
        leaf.contents = -code;
    }
    for child in copy.clip_nodes.iter_mut().flat_map(|node| &mut node.children) {
        if *child == -SKY as i16 {
            *child = -code as i16;
        }
    }
    Some((copy, code))
}

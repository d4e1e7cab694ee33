//! Stand-in: phys.rs names the number of an entity.

#[derive(Copy, Clone, Debug, Eq, PartialEq)]
pub struct EntityId(pub usize);

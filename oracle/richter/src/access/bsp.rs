//! Inside bsp/mod.rs: hulls and node tables by their parts.

use std::rc::Rc;

use super::{
    BspCollisionHull, BspCollisionNode, BspCollisionNodeChild, BspData, BspLeafContents,
    BspRenderNode,
};
use crate::common::math::Hyperplane;
use cgmath::{Vector3, Zero};

/// A hull of planes and nodes that no file gave.
pub fn hull(
    planes: Vec<Hyperplane>,
    nodes: Vec<(usize, [BspCollisionNodeChild; 2])>,
    root: usize,
) -> BspCollisionHull {
    let nodes: Vec<BspCollisionNode> = nodes
        .into_iter()
        .map(|(plane_id, children)| BspCollisionNode { plane_id, children })
        .collect();
    BspCollisionHull {
        planes: Rc::new(planes.into_boxed_slice()),
        node_id: root,
        node_count: nodes.len(),
        nodes: Rc::new(nodes.into_boxed_slice()),
        mins: Vector3::zero(),
        maxs: Vector3::zero(),
    }
}

/// The same tables with another root.
pub fn with_root(hull: &BspCollisionHull, root: usize) -> BspCollisionHull {
    BspCollisionHull {
        planes: hull.planes.clone(),
        nodes: hull.nodes.clone(),
        node_id: root,
        node_count: hull.node_count,
        mins: hull.mins,
        maxs: hull.maxs,
    }
}

pub fn root(hull: &BspCollisionHull) -> usize {
    hull.node_id
}

pub fn node_count(hull: &BspCollisionHull) -> usize {
    hull.node_count
}

pub fn planes(hull: &BspCollisionHull) -> &[Hyperplane] {
    &hull.planes
}

pub fn nodes(
    hull: &BspCollisionHull,
) -> impl Iterator<Item = (usize, &[BspCollisionNodeChild; 2])> {
    hull.nodes.iter().map(|node| (node.plane_id, &node.children))
}

/// Map data with planes and render nodes and nothing else, for leaf lookup.
pub fn data(planes: Rc<Box<[Hyperplane]>>, render_nodes: Vec<BspRenderNode>) -> BspData {
    let none = || hull(Vec::new(), Vec::new(), 0);
    BspData {
        planes,
        textures: Box::new([]),
        vertices: Box::new([]),
        visibility: Box::new([]),
        render_nodes: render_nodes.into_boxed_slice(),
        texinfo: Box::new([]),
        faces: Box::new([]),
        lightmaps: Box::new([]),
        leaves: Box::new([]),
        facelist: Box::new([]),
        edges: Box::new([]),
        edgelist: Box::new([]),
        hulls: [none(), none(), none()],
    }
}

/// The contents with this code.
pub fn contents(code: u32) -> Option<BspLeafContents> {
    num::FromPrimitive::from_u32(code)
}

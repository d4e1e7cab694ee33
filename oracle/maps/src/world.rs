//! A tree that divides a box evenly, as a map compiler makes it: walks and traces take about as
//! many nodes as on a real map. For timing.

use std::collections::HashMap;

use crate::{
    floats,
    record::*,
    shape::{Child, Node},
    Seed,
};

/// Half the side of the world.
pub const SIDE: f32 = 4096.0;

#[derive(Copy, Clone, Debug)]
pub struct World {
    pub nodes: usize,
    /// Of a hundred planes, how many are slanted: unit normals, rounded to f32.
    pub slanted: u64,
    /// Bytes of visibility and of lightmaps.
    pub visibility: usize,
    pub lightmaps: usize,
    pub faces: usize,
}

/// The tables of such a map. Each node table has `nodes` nodes, the leaves are one more.
pub fn tables(seed: &mut Seed, world: &World) -> Tables {
    let mut tree = Tree { slanted: world.slanted, ..Tree::default() };
    tree.divide(seed, world.nodes, [-SIDE; 3], [SIDE; 3]);
    let mut tables = Tables { planes: tree.planes, ..Tables::smallest() };
    nodes(seed, &tree.nodes, &mut tables);
    visibility(seed, world.visibility, &mut tables);
    tables.lightmaps = (0..world.lightmaps).map(|_| seed.next() as u8).collect();
    faces(seed, world.faces, &mut tables);
    tables.models[0].leaves = tables.leaves.len() as i32 - 1;
    tables
}

#[derive(Default)]
struct Tree {
    slanted: u64,
    planes: Vec<Plane>,
    axis_planes: HashMap<(usize, i32), usize>,
    nodes: Vec<Node>,
}

impl Tree {
    /// Divides a box among `count` nodes, at least one; answers the first's number.
    fn divide(&mut self, seed: &mut Seed, count: usize, low: [f32; 3], high: [f32; 3]) -> usize {
        let mut axis = 0;
        for other in 1..3 {
            if high[other] - low[other] > high[axis] - low[axis] {
                axis = other;
            }
        }
        let span = high[axis] - low[axis];
        // multiples of 8, so that the planes are few enough
        let at = ((low[axis] + span * (0.5 + floats::half(seed) * 0.3)) / 8.0).round() * 8.0;
        let plane = self.plane(seed, axis, at, low, high);
        let number = self.nodes.len();
        self.nodes.push(Node { plane, children: [Child::End; 2] });
        let rest = count - 1;
        let (mut front_low, mut back_high) = (low, high);
        front_low[axis] = at;
        back_high[axis] = at;
        let boxes = [(front_low, high), (low, back_high)];
        for (side, part) in [rest / 2, rest - rest / 2].into_iter().enumerate() {
            if part > 0 {
                let (low, high) = boxes[side];
                let child = self.divide(seed, part, low, high);
                self.nodes[number].children[side] = Child::Node(child);
            }
        }
        number
    }

    /// An axis plane, shared by all that are equal, or a slanted one through the box's middle.
    fn plane(
        &mut self,
        seed: &mut Seed,
        axis: usize,
        at: f32,
        low: [f32; 3],
        high: [f32; 3],
    ) -> usize {
        if seed.below(100) < self.slanted {
            let normal = floats::unit(seed);
            let middle = |part: usize| (low[part] as f64 + high[part] as f64) / 2.0;
            let dist: f64 = (0..3).map(|part| normal[part] as f64 * middle(part)).sum();
            self.planes.push(Plane { normal, dist: dist as f32, kind: 3 });
            return self.planes.len() - 1;
        }
        let planes = &mut self.planes;
        *self.axis_planes.entry((axis, at as i32)).or_insert_with(|| {
            let mut normal = [0.0; 3];
            normal[axis] = 1.0;
            planes.push(Plane { normal, dist: at, kind: axis as i32 });
            planes.len() - 1
        })
    }
}

/// Both node tables, each end a leaf of its own.
fn nodes(seed: &mut Seed, nodes: &[Node], tables: &mut Tables) {
    for node in nodes {
        let mut render = [0; 2];
        let mut clip = [0; 2];
        for side in 0..2 {
            match node.children[side] {
                Child::Node(n) => (render[side], clip[side]) = (n as i16, n as i16),
                Child::End => {
                    let contents = [-1, -1, -1, -2, -2, -3][seed.below(6) as usize];
                    render[side] = -1 - tables.leaves.len() as i16;
                    clip[side] = contents as i16;
                    tables.leaves.push(leaf(contents));
                }
            }
        }
        let plane = node.plane as i32;
        let (min, max) = ([-1; 3], [1; 3]);
        tables.render_nodes.push(RenderNode {
            plane,
            children: render,
            min,
            max,
            face: 0,
            faces: 0,
        });
        tables.clip_nodes.push(ClipNode { plane, children: clip });
    }
}

fn leaf(contents: i32) -> Leaf {
    Leaf {
        contents,
        visibility: 0,
        min: [-1; 3],
        max: [1; 3],
        facelist: 0,
        faces: 0,
        sounds: [0; 4],
    }
}

/// Rows that reach past the last leaf, each leaf with one of them.
fn visibility(seed: &mut Seed, bytes: usize, tables: &mut Tables) {
    let leaves = tables.leaves.len();
    let mut rows = Vec::new();
    while tables.visibility.len() < bytes {
        rows.push(tables.visibility.len() as i32);
        let mut number = 1;
        while number < leaves {
            // a few bytes of set bits, then a run of zeros
            for _ in 0..1 + seed.below(6) {
                tables.visibility.push(seed.next() as u8 | 1);
                number += 8;
            }
            let run = 1 + seed.below(40);
            tables.visibility.extend([0, run as u8]);
            number += 8 * run as usize;
        }
    }
    for leaf in tables.leaves.iter_mut() {
        leaf.visibility = match rows.len() {
            0 => -1,
            many => rows[seed.below(many as u64) as usize],
        };
    }
}

/// Faces of four corners over a few texture infos.
fn faces(seed: &mut Seed, count: usize, tables: &mut Tables) {
    if count == 0 {
        return;
    }
    tables.textures = [1, 0, 0, 0, 0xff, 0xff, 0xff, 0xff].to_vec();
    let s = [1.0, 0.0, 0.0, 0.0];
    tables.texinfos = vec![TexInfo { s, t: [0.0, 1.0, 0.0, 8.0], texture: 0, flags: 0 }; 8];
    for number in 0..count {
        let vertex = (tables.vertices.len() % 65_000) as u16;
        let at = [floats::half(seed) * SIDE, floats::half(seed) * SIDE, floats::half(seed) * SIDE];
        let edge = tables.edgelist.len() as i32;
        for corner in 0..4u16 {
            if tables.vertices.len() < 65_000 {
                let (x, y) = ((corner % 2) as f32 * 64.0, (corner / 2) as f32 * 64.0);
                tables.vertices.push([at[0] + x, at[1] + y, at[2]]);
            }
            tables.edgelist.push(tables.edges.len() as i32);
            tables.edges.push([vertex + corner, vertex + (corner + 1) % 4]);
        }
        tables.facelist.push(number as u16);
        tables.faces.push(Face {
            plane: seed.below(tables.planes.len() as u64) as i16,
            side: 0,
            edge,
            edges: 4,
            texinfo: seed.below(8) as i16,
            styles: [0, 255, 255, 255],
            lightmap: -1,
        });
    }
}

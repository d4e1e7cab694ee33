//! Whole maps that load, with chosen table sizes.

use crate::{
    floats,
    record::*,
    shape::{self, Child, Shape},
    Seed,
};

/// What to make. Every count may be 0 but that of the models.
#[derive(Clone, Debug)]
pub struct Plan {
    pub planes: usize,
    pub render_nodes: usize,
    pub render_shape: Shape,
    pub clip_nodes: usize,
    pub clip_shape: Shape,
    pub leaves: usize,
    pub faces: usize,
    pub textures: usize,
    pub visibility: usize,
    pub lightmaps: usize,
    pub models: usize,
    /// A special float, or an odd field, once in so many; 0 for never.
    pub wild: u64,
    /// Sections out of order, with gaps; empty ones at odd offsets; entities without a zero byte.
    pub odd_layout: bool,
}

/// The contents codes of the published Rust; `sky` puts a further one into maps.
pub const CONTENTS: [i32; 11] = [1, 2, 3, 4, 5, 9, 10, 11, 12, 13, 14];

impl Plan {
    /// Sizes of at most about `most` records a table, some tables empty.
    pub fn any(seed: &mut Seed, most: usize) -> Plan {
        let mut size = || {
            if seed.once_in(6) {
                0
            } else {
                1 + seed.below(most as u64) as usize
            }
        };
        let (planes, render_nodes, clip_nodes, leaves) = (size(), size(), size(), size());
        let (visibility, lightmaps) = (size() * 2, size());
        let faces = size() / 2;
        let textures = size().min(3);
        Plan {
            planes,
            render_nodes,
            render_shape: some(seed, &shape::SHAPES),
            clip_nodes,
            clip_shape: some(seed, &shape::SHAPES),
            leaves,
            faces: if textures == 0 { 0 } else { faces },
            textures,
            visibility,
            lightmaps,
            models: 1 + seed.below(4) as usize,
            wild: some(seed, &[0, 2, 8, 50]),
            odd_layout: seed.once_in(2),
        }
    }
}

fn some<T: Copy>(seed: &mut Seed, from: &[T]) -> T {
    from[seed.below(from.len() as u64) as usize]
}

fn small(seed: &mut Seed) -> i16 {
    match seed.below(6) {
        0 => i16::MIN,
        1 => i16::MAX,
        _ => seed.below(2049) as i16 - 1024,
    }
}

fn shorts(seed: &mut Seed) -> [i16; 3] {
    [small(seed), small(seed), small(seed)]
}

/// Tables and a layout for them. The file loads.
pub fn make(seed: &mut Seed, plan: &Plan) -> (Tables, Layout) {
    let planes = (0..plan.planes).map(|_| shape::plane(seed, plan.wild)).collect();
    let mut tables = Tables { planes, ..Tables::default() };
    textures(seed, plan, &mut tables);
    tables.visibility = visibility(seed, plan.visibility);
    tables.render_nodes = render_nodes(seed, plan);
    faces(seed, plan, &mut tables);
    tables.lightmaps = (0..plan.lightmaps).map(|_| seed.next() as u8).collect();
    tables.clip_nodes = clip_nodes(seed, plan);
    tables.leaves = (0..plan.leaves).map(|_| leaf(seed, plan)).collect();
    tables.facelist = (0..plan.faces * 2).map(|_| seed.next() as u16).collect();
    tables.models = (0..plan.models).map(|_| model(seed, plan)).collect();

    let mut layout = Layout::plain();
    tables.entities = entities(seed);
    if plan.odd_layout {
        odd(seed, &mut tables, &mut layout);
    }
    (tables, layout)
}

fn render_nodes(seed: &mut Seed, plan: &Plan) -> Vec<RenderNode> {
    shape::nodes(seed, plan.render_shape, plan.render_nodes, plan.planes)
        .into_iter()
        .map(|node| RenderNode {
            plane: node.plane as i32,
            children: node.children.map(|child| match child {
                Child::Node(n) => n.min(32_767) as i16,
                // with no leaf to name, a node outside the table
                Child::End if plan.leaves == 0 => 32_767,
                Child::End => -1 - seed.below(plan.leaves as u64) as i16,
            }),
            min: shorts(seed),
            max: shorts(seed),
            face: small(seed).max(0),
            faces: seed.next() as u16,
        })
        .collect()
}

fn clip_nodes(seed: &mut Seed, plan: &Plan) -> Vec<ClipNode> {
    shape::nodes(seed, plan.clip_shape, plan.clip_nodes, plan.planes)
        .into_iter()
        .map(|node| ClipNode {
            plane: match plan.wild {
                0 => node.plane as i32,
                wild if seed.once_in(wild * 20) => i32::MAX,
                _ => node.plane as i32,
            },
            children: node.children.map(|child| match child {
                Child::Node(n) => n.min(32_767) as i16,
                // solid and empty half of the time
                Child::End if seed.once_in(2) => -1 - seed.below(2) as i16,
                Child::End => -(some(seed, &CONTENTS) as i16),
            }),
        })
        .collect()
}

fn leaf(seed: &mut Seed, plan: &Plan) -> Leaf {
    Leaf {
        contents: -some(seed, &CONTENTS),
        visibility: match seed.below(8) {
            0 => -1,
            1 => plan.visibility as i32 + seed.below(3) as i32 - 1,
            2 if plan.wild > 0 => seed.below(1 << 31) as i32,
            _ => seed.below(plan.visibility as u64 + 1) as i32,
        }
        .max(-1),
        min: shorts(seed),
        max: shorts(seed),
        facelist: seed.next() as u16,
        faces: seed.next() as u16,
        sounds: (seed.next() as u32).to_le_bytes(),
    }
}

fn model(seed: &mut Seed, plan: &Plan) -> Model {
    let mut floats = || {
        [
            floats::coordinate(seed, plan.wild),
            floats::coordinate(seed, plan.wild),
            floats::coordinate(seed, plan.wild),
        ]
    };
    let (min, max, origin) = (floats(), floats(), floats());
    let mut root = |count: usize| match seed.below(8) {
        0..=2 => 0,
        3 => count as i32,
        4 if plan.wild > 0 => seed.below(1 << 31) as i32,
        _ => seed.below(count as u64 + 1) as i32,
    };
    let roots = [root(plan.render_nodes), root(plan.clip_nodes), root(plan.clip_nodes)];
    // the fourth is read and not tested
    let fourth = seed.next() as i32;
    let mut number = || match seed.below(6) {
        0 => i32::MAX,
        1 => 0,
        _ => seed.below(100) as i32,
    };
    Model {
        min,
        max,
        origin,
        roots: [roots[0], roots[1], roots[2], fourth],
        leaves: number(),
        face: number(),
        faces: number(),
    }
}

/// Rows of set bits and runs of zeros.
fn visibility(seed: &mut Seed, size: usize) -> Vec<u8> {
    let mut out = Vec::with_capacity(size);
    while out.len() < size {
        match seed.below(3) {
            0 => {
                out.push(0);
                out.push(match seed.below(4) {
                    0 => seed.next() as u8,
                    _ => seed.below(3) as u8,
                });
            }
            1 => out.push(1 << seed.below(8)),
            _ => out.push(seed.next() as u8),
        }
    }
    out.truncate(size);
    out
}

fn entities(seed: &mut Seed) -> Vec<u8> {
    let words = ["{\n", "\"classname\" \"worldspawn\"\n", "}\n", "\"message\" \"é€𝄞\"\n", "", "\t"];
    let mut out = Vec::new();
    for _ in 0..seed.below(6) {
        out.extend_from_slice(some(seed, &words).as_bytes());
    }
    out.push(0);
    out
}

/// The texture section: present and missing ones, animated ones with a first frame among them. It
/// ends where the last read of the last present texture ends.
fn textures(seed: &mut Seed, plan: &Plan, tables: &mut Tables) {
    let names = ["wall", "SKY1", "+0slip", "+1slip", "*water", "", "sixteen_letters_"];
    let mut list = Vec::new();
    let mut data: Vec<u8> = Vec::new();
    let start = 4 + 4 * plan.textures;
    for _ in 0..plan.textures {
        if seed.once_in(3) {
            list.push(-1);
            continue;
        }
        list.push((start + data.len()) as i32);
        let mut name = [0u8; 16];
        let text = some(seed, &names).as_bytes();
        name[..text.len()].copy_from_slice(text);
        let width = some(seed, &[0u32, 1, 4, 8, 16]);
        let height = some(seed, &[0u32, 2, 8, 16]);
        data.extend_from_slice(&name);
        data.extend_from_slice(&width.to_le_bytes());
        data.extend_from_slice(&height.to_le_bytes());
        let mut at = 40u32;
        let mut pixels = 0;
        for level in 0..4 {
            data.extend_from_slice(&at.to_le_bytes());
            let size = (width >> level) * (height >> level);
            at += size;
            pixels += size;
        }
        data.extend((0..pixels).map(|_| 7u8));
    }
    let mut out = Vec::new();
    (plan.textures as i32).put(&mut out);
    for offset in list {
        offset.put(&mut out);
    }
    out.extend_from_slice(&data);
    tables.textures = out;
}

/// Differences of cast s that a face without the special flag may have.
pub fn allowed(difference: u32) -> bool {
    (difference.min(32_767) as i16).wrapping_mul(16) <= 2000
}

/// Faces with their own vertices, edges, edge-list entries and texture infos, so that each is
/// accepted: small ones, exact and wrapping extents, and any floats under the special flag.
fn faces(seed: &mut Seed, plan: &Plan, tables: &mut Tables) {
    for _ in 0..plan.faces {
        let corners = 3 + seed.below(4) as usize;
        let first_vertex = tables.vertices.len();
        let mut texinfo = TexInfo {
            s: [1.0, 0.0, 0.0, seed.below(9) as f32 - 4.5],
            t: [0.0, -1.0, 0.0, 0.25],
            texture: seed.below(plan.textures as u64) as i32,
            flags: 0,
        };
        let vertices = match seed.below(if plan.wild == 0 { 2 } else { 4 }) {
            0 => small_face(seed, corners),
            1 => exact_face(seed, corners, &mut texinfo),
            2 => numberless_face(seed, corners, &mut texinfo),
            _ => any_face(seed, plan, corners, &mut texinfo),
        };
        tables.vertices.extend(vertices);
        let edge = tables.edgelist.len() as i32;
        edges(seed, first_vertex, corners, tables);
        tables.texinfos.push(texinfo);
        tables.faces.push(Face {
            // a plane number equal to the plane count is accepted
            plane: seed.below(plan.planes as u64 + 1) as i16,
            side: seed.below(2) as i16,
            edge,
            edges: corners as i16,
            texinfo: tables.texinfos.len() as i16 - 1,
            styles: (seed.next() as u32).to_le_bytes(),
            lightmap: seed.below(1 << 20) as i32 - 1,
        });
    }
    if plan.wild > 0 {
        // entries that no face uses
        tables.edgelist.extend([i32::MIN, i32::MAX, -1, 0]);
        tables.vertices.push([f32::NAN, f32::INFINITY, -0.0]);
        tables.edges.push([65_535, 65_535]);
    }
}

/// The corners of a small face. 0 times any float that is no number is NaN; those are kept out of s
/// and t.
fn small_face(seed: &mut Seed, corners: usize) -> Vec<[f32; 3]> {
    let mut corner = || {
        let (x, y) = (floats::coordinate(seed, 0), floats::coordinate(seed, 0));
        let z = floats::float(seed);
        [x, y, if z.is_finite() { z } else { 3.5 }]
    };
    (0..corners).map(|_| corner()).collect()
}

/// An exact difference, at and around the ones where the product wraps; one that is too large goes
/// with the special flag.
fn exact_face(seed: &mut Seed, corners: usize, texinfo: &mut TexInfo) -> Vec<[f32; 3]> {
    let difference = some(seed, &[0, 1, 124, 125, 2046, 2048, 4096, 4221, 8192, 32_766, 40_000])
        + seed.below(3) as u32;
    texinfo.flags = (!allowed(difference) || seed.once_in(4)) as i32;
    texinfo.s = [1.0, 0.0, 0.0, 0.0];
    texinfo.t = [0.0; 4];
    let x = |corner| if corner == 1 { 16.0 * difference as f32 } else { 0.0 };
    (0..corners).map(|corner| [x(corner), 1.0, 2.0]).collect()
}

/// No number anywhere in s: accepted with extent 0.
fn numberless_face(seed: &mut Seed, corners: usize, texinfo: &mut TexInfo) -> Vec<[f32; 3]> {
    texinfo.s[3] = f32::NAN;
    texinfo.t = [0.0; 4];
    (0..corners).map(|_| [1.0, 2.0, floats::coordinate(seed, 0)]).collect()
}

/// Any floats, under the special flag.
fn any_face(seed: &mut Seed, plan: &Plan, corners: usize, texinfo: &mut TexInfo) -> Vec<[f32; 3]> {
    texinfo.s = [0; 4].map(|_| floats::float(seed));
    texinfo.t = [0; 4].map(|_| floats::float(seed));
    texinfo.flags = 1;
    let mut corner = || {
        let scale = some(seed, &[1.0, 100.0, 60_000.0]);
        let [x, y, z] = [0; 3].map(|_| floats::coordinate(seed, plan.wild));
        [x * scale, y, z]
    };
    (0..corners).map(|_| corner()).collect()
}

/// The edges of a face from this vertex on, and its entries in the edge list.
fn edges(seed: &mut Seed, first_vertex: usize, corners: usize, tables: &mut Tables) {
    for corner in 0..corners {
        let vertex = (first_vertex + corner) as u16;
        let number = tables.edges.len() as i32;
        // the vertex on the other side is not looked at and may be outside
        let other = if seed.once_in(4) { 65_535 } else { first_vertex as u16 };
        if number > 0 && seed.once_in(2) {
            tables.edges.push([other, vertex]);
            tables.edgelist.push(-number);
        } else {
            tables.edges.push([vertex, other]);
            tables.edgelist.push(number);
        }
    }
}

/// Sections out of order, gaps, odd offsets for empty sections, entities without their zero byte at
/// the file's end, or none.
fn odd(seed: &mut Seed, tables: &mut Tables, layout: &mut Layout) {
    for at in (1..SECTIONS).rev() {
        layout.order.swap(at, seed.below(at as u64 + 1) as usize);
    }
    for gap in layout.gaps.iter_mut() {
        if seed.once_in(3) {
            *gap = seed.below(7) as usize;
        }
    }
    for empty in layout.empty.iter_mut() {
        if seed.once_in(2) {
            *empty = Some(match seed.below(4) {
                0 => 0,
                1 => i32::MAX as u32,
                _ => seed.below(5000) as u32,
            });
        }
    }
    match seed.below(4) {
        0 => {
            tables.entities.pop();
            let at = layout.order.iter().position(|s| *s == ENTITIES).unwrap();
            layout.order.swap(at, SECTIONS - 1);
        }
        1 => tables.entities.clear(),
        _ => {}
    }
}

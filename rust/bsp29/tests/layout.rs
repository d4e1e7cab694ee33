//! The records of the two rooms, read from the file's bytes a second time: each field of the crate's
//! structs has the value that stands at its place in the file.

mod common;

use bsp29::*;
use common::rooms;

/// The fields of a record, one after the other.
struct Fields<'a> {
    bytes: &'a [u8],
}

impl Fields<'_> {
    fn take<const N: usize>(&mut self) -> [u8; N] {
        let (front, rest) = self.bytes.split_at(N);
        self.bytes = rest;
        front.try_into().unwrap()
    }
    fn u8(&mut self) -> u8 {
        self.take::<1>()[0]
    }
    fn u16(&mut self) -> u16 {
        u16::from_le_bytes(self.take())
    }
    fn i16(&mut self) -> i16 {
        i16::from_le_bytes(self.take())
    }
    fn i32(&mut self) -> i32 {
        i32::from_le_bytes(self.take())
    }
    fn f32(&mut self) -> f32 {
        f32::from_le_bytes(self.take())
    }
    fn point(&mut self) -> [f32; 3] {
        [self.f32(), self.f32(), self.f32()]
    }
    fn shorts(&mut self) -> [i16; 3] {
        [self.i16(), self.i16(), self.i16()]
    }
    fn index(&mut self) -> usize {
        self.i32() as usize
    }
}

/// Compares each record of a section with what `read` makes of its bytes.
fn compare<R>(
    file: &[u8],
    section: usize,
    size: usize,
    records: Records<'_, R>,
    mut read: impl FnMut(&mut Fields) -> R,
) where
    R: Record + PartialEq + std::fmt::Debug,
{
    let mut head = Fields { bytes: &file[4 + 8 * section..] };
    let (offset, bytes) = (head.index(), head.index());
    assert!(bytes > 0, "section {section} is empty");
    assert_eq!(records.len(), bytes / size);
    for (index, record) in records.iter().enumerate() {
        let mut fields = Fields { bytes: &file[offset + index * size..][..size] };
        assert_eq!(record.unwrap(), read(&mut fields), "record {index} of section {section}");
        assert!(fields.bytes.is_empty(), "section {section}");
    }
}

fn contents(code: i32) -> Contents {
    match code {
        -1 => Contents::Empty,
        -2 => Contents::Solid,
        -3 => Contents::Water,
        other => panic!("the rooms have no {other}"),
    }
}

fn offset(field: i32) -> Option<usize> {
    usize::try_from(field).ok()
}

#[test]
fn planes_and_vertices() {
    let file = rooms();
    let map = Map::load(&file).unwrap();
    compare(&file, 1, 20, map.planes(), |f| {
        let (normal, dist) = (f.point(), f.f32());
        let kind = match f.i32() {
            0 => PlaneKind::X,
            1 => PlaneKind::Y,
            2 => PlaneKind::Z,
            _ => PlaneKind::Normal,
        };
        // -0.6, 0, 0.8 is of length 1 in f32 and stays as it is when it is normalised
        Plane { kind, normal, dist }
    });
    compare(&file, 3, 12, map.vertices(), |f| Vertex { point: f.point() });
}

#[test]
fn nodes_and_leaves() {
    let file = rooms();
    let map = Map::load(&file).unwrap();
    let render = |child: i16| match child {
        0.. => RenderChild::Node(child as usize),
        _ => RenderChild::Leaf((-1 - child) as usize),
    };
    compare(&file, 5, 24, map.render_nodes(), |f| RenderNode {
        plane: f.index(),
        front: render(f.i16()),
        back: render(f.i16()),
        min: f.shorts(),
        max: f.shorts(),
        face: f.u16() as usize,
        face_count: f.u16() as usize,
    });
    let clip = |child: i16| match child {
        0.. => ClipChild::Node(child as usize),
        _ => ClipChild::Contents(contents(child as i32)),
    };
    compare(&file, 9, 8, map.clip_nodes(), |f| ClipNode {
        plane: f.index(),
        front: clip(f.i16()),
        back: clip(f.i16()),
    });
    compare(&file, 10, 28, map.leaves(), |f| Leaf {
        contents: contents(f.i32()),
        visibility: offset(f.i32()),
        min: f.shorts(),
        max: f.shorts(),
        face_list: f.u16() as usize,
        face_list_count: f.u16() as usize,
        sounds: Sounds { water: f.u8(), sky: f.u8(), slime: f.u8(), lava: f.u8() },
    });
}

#[test]
fn surfaces() {
    let file = rooms();
    let map = Map::load(&file).unwrap();
    compare(&file, 6, 40, map.texture_infos(), |f| TextureInfo {
        s: f.point(),
        s_offset: f.f32(),
        t: f.point(),
        t_offset: f.f32(),
        texture: f.index(),
        special: f.i32() == 1,
    });
    // worked out from the corners: s is x + 4.5 or x, t is -y - 2.25 or -y, in blocks of 16
    let mut worked_out = [([-128, -144], [128, 272]), ([0, -128], [48, 256])].into_iter();
    compare(&file, 7, 20, map.faces(), |f| {
        let (texture_mins, extents) = worked_out.next().unwrap();
        Face {
            plane: f.i16() as usize,
            side: if f.i16() == 0 { Side::Front } else { Side::Back },
            edge: f.index(),
            edge_count: f.i16() as usize,
            texture_info: f.i16() as usize,
            light_styles: f.take(),
            lightmap: offset(f.i32()),
            texture_mins,
            extents,
        }
    });
    compare(&file, 11, 2, map.face_list(), |f| FaceListEntry { face: f.u16() as usize });
    compare(&file, 12, 4, map.edges(), |f| Edge { vertices: [f.u16() as usize, f.u16() as usize] });
    compare(&file, 13, 4, map.edge_list(), |f| match f.i32() {
        n @ 0.. => EdgeListEntry { direction: Direction::Forward, edge: n as usize },
        n => EdgeListEntry { direction: Direction::Backward, edge: -n as usize },
    });
}

#[test]
fn models() {
    let file = rooms();
    let map = Map::load(&file).unwrap();
    let clip_nodes = map.clip_nodes().len();
    let mut before = 0;
    compare(&file, 14, 64, map.models(), |f| {
        let min = f.point().map(|x| x - 1.0);
        let max = f.point().map(|x| x + 1.0);
        let origin = f.point();
        let hull_roots = [f.index(), f.index(), f.index()];
        f.i32();
        let leaf_count = f.index();
        let leaf = before;
        before += leaf_count;
        Model {
            min,
            max,
            origin,
            hull_roots,
            hull_node_counts: hull_roots.map(|root| clip_nodes.wrapping_sub(root)),
            leaf,
            leaf_count,
            face: f.index(),
            face_count: f.index(),
            last_leaf: leaf + leaf_count,
        }
    });
}

//! Loading, and every record of a loaded map as plain data.

use std::{io::Cursor, rc::Rc};

use crate::{
    common::{
        bsp::{
            self, access, BspData, BspModel, BspRenderNode, BspRenderNodeChild, BspTextureFrame,
            BspTextureKind, BspTextureMipmap,
        },
        model::ModelKind,
    },
    hull::{Answer, Hull, Node},
    plane::{point, vector},
    probe,
    refusal::{catch, of_error, Caught},
    Plane, Point, Refusal,
};

/// A child of a render node.
#[derive(Copy, Clone, Debug, Eq, PartialEq)]
pub enum RenderChild {
    Node(usize),
    Leaf(usize),
}

#[derive(Copy, Clone, Debug, Eq, PartialEq)]
pub struct RenderNode {
    pub plane: usize,
    pub children: [RenderChild; 2],
    pub min: [i16; 3],
    pub max: [i16; 3],
    pub face_id: usize,
    pub face_count: usize,
}

#[derive(Copy, Clone, Debug, PartialEq)]
pub struct TexInfo {
    pub s_vector: Point,
    pub s_offset: f32,
    pub t_vector: Point,
    pub t_offset: f32,
    /// The file's texture number, not the one that the published code puts in its place (that one
    /// without the feature `notes`).
    pub texture: usize,
    pub special: bool,
}

#[derive(Copy, Clone, Debug, Eq, PartialEq)]
pub struct Face {
    pub plane: usize,
    /// 0 front, 1 back.
    pub side: u32,
    pub edge_id: usize,
    pub edge_count: usize,
    pub texinfo: usize,
    pub light_styles: [u8; 4],
    pub lightmap: Option<usize>,
    pub texture_mins: [i16; 2],
    pub extents: [i16; 2],
}

#[derive(Copy, Clone, Debug, Eq, PartialEq)]
pub struct Leaf {
    /// Contents code, 1 to 14.
    pub contents: u32,
    pub vis_offset: Option<usize>,
    pub min: [i16; 3],
    pub max: [i16; 3],
    pub facelist_id: usize,
    pub facelist_count: usize,
    pub sounds: [u8; 4],
}

/// An entry of the edge list: 0 forward or 1 backward, and the edge.
#[derive(Copy, Clone, Debug, Eq, PartialEq)]
pub struct EdgeIndex {
    pub direction: u32,
    pub index: usize,
}

#[derive(Copy, Clone, Debug, PartialEq)]
pub struct Model {
    pub min: Point,
    pub max: Point,
    pub origin: Point,
    pub roots: [usize; 3],
    pub node_counts: [usize; 3],
    pub leaf_id: usize,
    pub leaf_count: usize,
    pub face_id: usize,
    pub face_count: usize,
}

/// A loaded map.
pub struct Map {
    data: Rc<BspData>,
    models: Vec<BspModel>,
    textures: Vec<usize>,
    entities: String,
}

/// `load` over the file's bytes.
pub fn load(file: &[u8]) -> Result<Map, Refusal> {
    probe::in_textures(false);
    probe::texture_numbers();
    let loaded = catch(|| bsp::load(Cursor::new(file)));
    let textures = probe::texture_numbers();
    let (models, entities) = match loaded {
        Err(caught) => return Err(caught.of_load()),
        Ok(Err(error)) => return Err(of_error(error)),
        Ok(Ok(loaded)) => loaded,
    };
    let models: Vec<BspModel> = models
        .into_iter()
        .map(|model| match model.kind {
            ModelKind::Brush(model) => model,
            _ => panic!("a map gives brush models alone"),
        })
        .collect();
    let data = models[0].bsp_data();
    Ok(Map { data, models, textures, entities })
}

/// The same, but the texture section is passed over once its count is read: document 01 has
/// loading go on where the published code fails there.
pub fn load_without_textures(file: &[u8]) -> Result<Map, Refusal> {
    probe::set_skips_textures(true);
    let loaded = load(file);
    probe::set_skips_textures(false);
    loaded
}

/// The frames of a texture, each by its first picture.
#[derive(Clone, Debug, Eq, PartialEq)]
pub enum Frames {
    Static(Vec<u8>),
    Animated { primary: Vec<Vec<u8>>, alternate: Vec<Vec<u8>> },
}

impl Map {
    /// The textures by the published code's own numbers: the name or the stem, and the frames.
    pub fn textures(&self) -> Vec<(String, Frames)> {
        let picture = |frame: &BspTextureFrame| frame.mipmap(BspTextureMipmap::Full).to_vec();
        let frames = |kind: &BspTextureKind| match kind {
            BspTextureKind::Static(frame) => Frames::Static(picture(frame)),
            BspTextureKind::Animated { primary, alternate } => Frames::Animated {
                primary: primary.iter().map(picture).collect(),
                alternate: alternate.iter().flatten().map(picture).collect(),
            },
        };
        self.data.textures().iter().map(|t| (t.name().to_string(), frames(t.kind()))).collect()
    }

    /// The published code's own texture number of each texture info.
    pub fn own_texture_numbers(&self) -> Vec<usize> {
        self.data.texinfo().iter().map(|t| t.tex_id).collect()
    }

    /// The entity text with its zero byte.
    pub fn entities(&self) -> &[u8] {
        self.entities.as_bytes()
    }

    pub fn planes(&self) -> Vec<Plane> {
        self.data.planes().iter().map(Plane::of).collect()
    }

    pub fn vertices(&self) -> Vec<Point> {
        self.data.vertices().iter().map(|v| point(*v)).collect()
    }

    pub fn visibility(&self) -> &[u8] {
        &self.data.visibility
    }

    pub fn lightmaps(&self) -> &[u8] {
        self.data.lightmaps()
    }

    pub fn render_nodes(&self) -> Vec<RenderNode> {
        self.data
            .render_nodes()
            .iter()
            .map(|n| RenderNode {
                plane: n.plane_id,
                children: [render_child(&n.children[0]), render_child(&n.children[1])],
                min: n.min,
                max: n.max,
                face_id: n.face_id,
                face_count: n.face_count,
            })
            .collect()
    }

    pub fn texinfos(&self) -> Vec<TexInfo> {
        self.data
            .texinfo()
            .iter()
            .enumerate()
            .map(|(at, t)| TexInfo {
                s_vector: point(t.s_vector),
                s_offset: t.s_offset,
                t_vector: point(t.t_vector),
                t_offset: t.t_offset,
                texture: self.textures.get(at).copied().unwrap_or(t.tex_id),
                special: t.special,
            })
            .collect()
    }

    pub fn faces(&self) -> Vec<Face> {
        self.data
            .faces()
            .iter()
            .map(|f| Face {
                plane: f.plane_id,
                side: f.side as u32,
                edge_id: f.edge_id,
                edge_count: f.edge_count,
                texinfo: f.texinfo_id,
                light_styles: f.light_styles,
                lightmap: f.lightmap_id,
                texture_mins: f.texture_mins,
                extents: f.extents,
            })
            .collect()
    }

    pub fn clip_nodes(&self) -> Vec<Node> {
        self.table(1).nodes()
    }

    /// The render nodes as collision nodes, leaves replaced by their contents.
    pub fn render_nodes_as_clip_nodes(&self) -> Vec<Node> {
        self.table(0).nodes()
    }

    pub fn leaves(&self) -> Vec<Leaf> {
        self.data
            .leaves()
            .iter()
            .map(|l| Leaf {
                contents: l.contents as u32,
                vis_offset: l.vis_offset,
                min: l.min,
                max: l.max,
                facelist_id: l.facelist_id,
                facelist_count: l.facelist_count,
                sounds: l.sounds,
            })
            .collect()
    }

    pub fn facelist(&self) -> &[usize] {
        self.data.facelist()
    }

    pub fn edges(&self) -> Vec<[u16; 2]> {
        self.data.edges().iter().map(|e| e.vertex_ids).collect()
    }

    pub fn edgelist(&self) -> Vec<EdgeIndex> {
        self.data
            .edgelist()
            .iter()
            .map(|e| EdgeIndex { direction: e.direction as u32, index: e.index })
            .collect()
    }

    pub fn models(&self) -> Vec<Model> {
        self.models
            .iter()
            .map(|m| Model {
                min: point(m.min),
                max: point(m.max),
                origin: point(m.origin),
                roots: m.collision_node_ids,
                node_counts: m.collision_node_counts,
                leaf_id: m.leaf_id,
                leaf_count: m.leaf_count,
                face_id: m.face_id,
                face_count: m.face_count,
            })
            .collect()
    }

    /// `BspModel::hull` of a model by its number.
    pub fn hull(&self, model: usize, index: usize) -> Result<Hull, Refusal> {
        let model = match self.models.get(model) {
            None => return Err(Refusal::Number(20)),
            Some(model) => model,
        };
        match catch(|| model.hull(index)) {
            Err(caught) => Err(caught.of_hull()),
            Ok(Err(_)) => Err(Refusal::Number(20)),
            Ok(Ok(hull)) => Ok(Hull::of(hull)),
        }
    }

    /// The built-in hull of index 0 (render nodes as collision nodes), 1 or 2 (clip nodes), root 0.
    pub fn table(&self, index: usize) -> Hull {
        Hull::of(access::with_root(&self.data.hulls()[index], 0))
    }

    /// `find_leaf`, which starts at render node 0.
    pub fn find_leaf(&self, p: Point) -> Answer<usize> {
        Answer::of(|| self.data.find_leaf(vector(p)))
    }

    /// `find_leaf` from other roots.
    pub fn leaf_finder(&self, root: usize) -> LeafFinder {
        let children = self.render_nodes();
        let nodes: Vec<(usize, [RenderChild; 2])> =
            children.iter().map(|n| (n.plane, n.children)).collect();
        LeafFinder::new(self.data.planes.clone(), &nodes, root)
    }

    /// `find_leaf` with nothing caught or noted, for timing.
    pub fn bare_find_leaf(&self, p: Point) -> usize {
        self.data.find_leaf(vector(p))
    }

    /// `get_pvs` with nothing caught, for timing.
    pub fn bare_pvs(&self, leaf: usize, leaf_count: usize) -> Vec<usize> {
        self.data.get_pvs(leaf, leaf_count)
    }

    /// `get_pvs`.
    pub fn get_pvs(&self, leaf: usize, leaf_count: usize) -> Result<Vec<usize>, Refusal> {
        catch(|| self.data.get_pvs(leaf, leaf_count)).map_err(Caught::of_pvs)
    }
}

/// Leaf lookup from any root, and over tables made by hand. The published code starts at node 0, so
/// the numbers of node 0 and the root are exchanged before it runs and in the nodes it enters.
pub struct LeafFinder {
    data: BspData,
    root: usize,
}

impl LeafFinder {
    pub fn by_hand(
        planes: &[Plane],
        nodes: &[(usize, [RenderChild; 2])],
        root: usize,
    ) -> LeafFinder {
        let planes: Vec<_> = planes.iter().map(|p| p.inner()).collect();
        LeafFinder::new(Rc::new(planes.into_boxed_slice()), nodes, root)
    }

    fn new(
        planes: Rc<Box<[crate::common::math::Hyperplane]>>,
        nodes: &[(usize, [RenderChild; 2])],
        root: usize,
    ) -> LeafFinder {
        let child = |c: RenderChild| match c {
            RenderChild::Leaf(l) => BspRenderNodeChild::Leaf(l),
            // out of range stays out of range
            RenderChild::Node(n) if root >= nodes.len() => BspRenderNodeChild::Node(n),
            RenderChild::Node(n) => BspRenderNodeChild::Node(exchanged(n, root)),
        };
        let mut render: Vec<BspRenderNode> = nodes
            .iter()
            .map(|(plane, children)| BspRenderNode {
                plane_id: *plane,
                children: [child(children[0]), child(children[1])],
                min: [0; 3],
                max: [0; 3],
                face_id: 0,
                face_count: 0,
            })
            .collect();
        if root < render.len() {
            render.swap(0, root);
        }
        LeafFinder { data: access::data(planes, render), root }
    }

    pub fn find_leaf(&self, p: Point) -> Answer<usize> {
        if self.root >= self.data.render_nodes().len() {
            return Answer { value: Err(Refusal::Number(30)), nodes: Vec::new() };
        }
        let mut answer = Answer::of(|| self.data.find_leaf(vector(p)));
        for n in answer.nodes.iter_mut() {
            *n = exchanged(*n, self.root);
        }
        answer
    }
}

fn exchanged(n: usize, root: usize) -> usize {
    if n == 0 {
        root
    } else if n == root {
        0
    } else {
        n
    }
}

fn render_child(child: &BspRenderNodeChild) -> RenderChild {
    match child {
        BspRenderNodeChild::Node(n) => RenderChild::Node(*n),
        BspRenderNodeChild::Leaf(l) => RenderChild::Leaf(*l),
    }
}

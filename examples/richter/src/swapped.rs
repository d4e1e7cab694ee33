//! richter's names over the crate bsp29: what its server asks of `common::bsp`, `common::model`,
//! `common::math` and `server::world`. A server that takes this file in the place of those modules keeps its
//! own text.
//!
//! What differs from richter:
//!
//! - `load` reads the whole file and asks `accept` of it: a map that would make a later call panic, run off
//!   or not end is refused here. After that no call of this file is refused or panics.
//! - `get_pvs` lists the leaves below the leaf count alone, where richter lists the rest of the row's last
//!   byte too.
//! - Textures are not here: the calls of a server do not ask for them.

pub mod common {
    pub mod bsp {
        use super::math::{point, vector};
        use super::model::Model;
        use crate::swapped::server::world::Trace;
        use bsp29::{BoxHull, Hull, MapOf, Refusal};
        use cgmath::Vector3;
        use std::fmt;
        use std::io::{Read, Seek};
        use std::rc::Rc;

        pub use bsp29::Contents as BspLeafContents;

        /// Why a question is refused.
        pub type BspError = Refusal;

        /// Why a file is not loaded.
        #[derive(Debug)]
        pub enum BspFileError {
            Io(std::io::Error),
            Refused(Refusal),
        }

        impl fmt::Display for BspFileError {
            fn fmt(&self, f: &mut fmt::Formatter<'_>) -> fmt::Result {
                match self {
                    BspFileError::Io(error) => error.fmt(f),
                    BspFileError::Refused(refusal) => refusal.fmt(f),
                }
            }
        }

        impl std::error::Error for BspFileError {}

        impl From<std::io::Error> for BspFileError {
            fn from(error: std::io::Error) -> BspFileError {
                BspFileError::Io(error)
            }
        }

        impl From<Refusal> for BspFileError {
            fn from(refusal: Refusal) -> BspFileError {
                BspFileError::Refused(refusal)
            }
        }

        /// The models of a file, the world first, and its entity text.
        pub fn load<R: Read + Seek>(mut data: R) -> Result<(Vec<Model>, String), BspFileError> {
            let mut file = Vec::new();
            data.read_to_end(&mut file)?;
            let map = MapOf::load(file)?;
            map.accept()?;
            let entities = map.entity_text()?.to_owned();
            let data = Rc::new(BspData { map });
            let models = (0..data.map.models().len())
                .map(|index| Ok(Model::from_brush_model(format!("*{index}"), model(&data, index)?)))
                .collect::<Result<_, Refusal>>()?;
            Ok((models, entities))
        }

        fn model(data: &Rc<BspData>, index: usize) -> Result<BspModel, Refusal> {
            let map = &data.map;
            let record = map.models().get(index)?;
            Ok(BspModel {
                bsp_data: Rc::clone(data),
                min: vector(record.min),
                max: vector(record.max),
                origin: vector(record.origin),
                hulls: Box::new([map.hull(index, 0)?, map.hull(index, 1)?, map.hull(index, 2)?]),
                leaf_id: record.leaf,
                leaf_count: record.leaf_count,
                // a range outside the list, at which richter panics, has no faces
                face_list: map
                    .model_face_list(index)
                    .map(|list| list.filter_map(|entry| Some(entry.ok()?.face)).collect())
                    .unwrap_or_default(),
            })
        }

        /// A map and its file.
        #[derive(Debug)]
        pub struct BspData {
            map: MapOf<Vec<u8>>,
        }

        impl BspData {
            pub fn find_leaf<V: Into<Vector3<f32>>>(&self, pos: V) -> usize {
                self.map.find_leaf(point(pos.into())).map_or(0, |(leaf, _)| leaf)
            }

            pub fn get_pvs(&self, leaf_id: usize, leaf_count: usize) -> Vec<usize> {
                let seen = self.map.visible_leaves(leaf_id, leaf_count).unwrap_or_default();
                seen.into_iter().map(|leaf| leaf as usize).collect()
            }

            pub fn face_iter_vertices(
                &self,
                face_id: usize,
            ) -> impl Iterator<Item = Vector3<f32>> + '_ {
                self.map.face_vertices(face_id).into_iter().flatten().flatten().map(vector)
            }
        }

        /// A model of a map.
        #[derive(Debug)]
        pub struct BspModel {
            pub bsp_data: Rc<BspData>,
            pub min: Vector3<f32>,
            pub max: Vector3<f32>,
            pub origin: Vector3<f32>,
            pub leaf_id: usize,
            pub leaf_count: usize,
            hulls: Box<[Hull; 3]>,
            face_list: Vec<usize>,
        }

        impl BspModel {
            pub fn bsp_data(&self) -> Rc<BspData> {
                Rc::clone(&self.bsp_data)
            }

            pub fn min(&self) -> Vector3<f32> {
                self.min
            }

            pub fn max(&self) -> Vector3<f32> {
                self.max
            }

            pub fn size(&self) -> Vector3<f32> {
                self.max - self.min
            }

            pub fn origin(&self) -> Vector3<f32> {
                self.origin
            }

            pub fn face_list(&self) -> &[usize] {
                &self.face_list
            }

            pub fn hull(&self, index: usize) -> Result<BspCollisionHull, BspError> {
                let hull = self.hulls.get(index).ok_or(Refusal::NoSuchRecord)?;
                Ok(BspCollisionHull::Map(Rc::clone(&self.bsp_data), *hull))
            }
        }

        /// What something moves in.
        #[derive(Debug)]
        pub enum BspCollisionHull {
            Map(Rc<BspData>, Hull),
            Box(BoxHull),
        }

        impl BspCollisionHull {
            pub fn for_bounds(
                mins: Vector3<f32>,
                maxs: Vector3<f32>,
            ) -> Result<BspCollisionHull, BspError> {
                BoxHull::new(point(mins), point(maxs)).map(BspCollisionHull::Box)
            }

            fn hull(&self) -> &Hull {
                match self {
                    BspCollisionHull::Map(_, hull) => hull,
                    BspCollisionHull::Box(hull) => hull.hull(),
                }
            }

            pub fn min(&self) -> Vector3<f32> {
                vector(self.hull().mins())
            }

            pub fn max(&self) -> Vector3<f32> {
                vector(self.hull().maxs())
            }

            pub fn contents_at_point(&self, at: Vector3<f32>) -> Result<BspLeafContents, BspError> {
                let (contents, _visits) = match self {
                    BspCollisionHull::Map(data, hull) => data.map.contents(hull, point(at))?,
                    BspCollisionHull::Box(hull) => hull.contents(point(at))?,
                };
                Ok(contents)
            }

            pub fn trace(&self, start: Vector3<f32>, end: Vector3<f32>) -> Result<Trace, BspError> {
                let (start, end) = (point(start), point(end));
                let trace = match self {
                    BspCollisionHull::Map(data, hull) => data.map.trace(hull, start, end)?,
                    BspCollisionHull::Box(hull) => hull.trace(start, end)?,
                };
                Ok(Trace::of(trace))
            }
        }
    }

    pub mod model {
        use super::bsp::BspModel;

        #[derive(Debug)]
        pub struct Model {
            pub name: String,
            pub kind: ModelKind,
        }

        /// richter has models of other kinds here, which are not in a map.
        #[derive(Debug)]
        pub enum ModelKind {
            None,
            Brush(BspModel),
        }

        impl Model {
            pub fn from_brush_model<S: AsRef<str>>(name: S, brush_model: BspModel) -> Model {
                Model { name: name.as_ref().to_owned(), kind: ModelKind::Brush(brush_model) }
            }

            pub fn kind(&self) -> &ModelKind {
                &self.kind
            }
        }
    }

    pub mod math {
        use bsp29::{Plane, Side};
        use cgmath::Vector3;

        pub(crate) fn point(v: Vector3<f32>) -> [f32; 3] {
            [v.x, v.y, v.z]
        }

        pub(crate) fn vector(point: [f32; 3]) -> Vector3<f32> {
            Vector3::from(point)
        }

        #[derive(Copy, Clone, Debug, PartialEq)]
        pub enum HyperplaneSide {
            Positive = 0,
            Negative = 1,
        }

        #[derive(Clone, Debug)]
        pub struct Hyperplane(pub(crate) Plane);

        impl Hyperplane {
            pub fn normal(&self) -> Vector3<f32> {
                vector(self.0.normal)
            }

            pub fn point_dist(&self, at: Vector3<f32>) -> f32 {
                self.0.point_dist(point(at))
            }

            pub fn point_side(&self, at: Vector3<f32>) -> HyperplaneSide {
                match self.0.point_side(point(at)) {
                    Side::Front => HyperplaneSide::Positive,
                    Side::Back => HyperplaneSide::Negative,
                }
            }
        }
    }
}

pub mod server {
    pub mod world {
        use crate::swapped::common::bsp::BspError;
        use crate::swapped::common::math::{point, vector, Hyperplane};
        use cgmath::Vector3;

        #[derive(Clone, Debug)]
        pub struct TraceEndBoundary {
            pub ratio: f32,
            pub plane: Hyperplane,
        }

        #[derive(Clone, Debug)]
        pub enum TraceEndKind {
            Terminal,
            Boundary(TraceEndBoundary),
        }

        #[derive(Clone, Debug)]
        pub struct TraceEnd {
            kind: TraceEndKind,
        }

        impl TraceEnd {
            pub fn kind(&self) -> &TraceEndKind {
                &self.kind
            }
        }

        #[derive(Clone, Debug)]
        pub struct Trace {
            trace: bsp29::Trace,
            end: TraceEnd,
        }

        impl Trace {
            pub(crate) fn of(trace: bsp29::Trace) -> Trace {
                let kind = match trace.kind {
                    bsp29::TraceEnd::Terminal => TraceEndKind::Terminal,
                    bsp29::TraceEnd::Boundary { ratio, plane } => {
                        TraceEndKind::Boundary(TraceEndBoundary { ratio, plane: Hyperplane(plane) })
                    }
                };
                Trace { trace, end: TraceEnd { kind } }
            }

            /// richter panics where this is refused.
            pub fn join(self, other: Trace) -> Result<Trace, BspError> {
                self.trace.join(other.trace).map(Trace::of)
            }

            pub fn adjust(self, offset: Vector3<f32>) -> Trace {
                Trace { trace: self.trace.adjust(point(offset)), ..self }
            }

            pub fn start_point(&self) -> Vector3<f32> {
                vector(self.trace.start)
            }

            pub fn end(&self) -> &TraceEnd {
                &self.end
            }

            pub fn end_point(&self) -> Vector3<f32> {
                vector(self.trace.end)
            }

            pub fn all_solid(&self) -> bool {
                self.trace.all_solid()
            }

            pub fn start_solid(&self) -> bool {
                self.trace.start_solid
            }

            pub fn in_open(&self) -> bool {
                self.trace.in_open()
            }

            pub fn in_water(&self) -> bool {
                self.trace.in_water()
            }

            pub fn is_terminal(&self) -> bool {
                self.trace.is_terminal()
            }

            pub fn ratio(&self) -> f32 {
                self.trace.ratio()
            }
        }
    }
}

// What a server of richter asks of the map code when something moves: a hull for each thing in its way,
// the move traced in that thing's own place and shifted back, and the nearest of what it met; what it
// stands in; its leaf and what can be seen from there.
//
// The text is compiled twice, in two modules of main.rs that differ in their imports alone.

/// Something that others run into.
pub enum Shape {
    /// A model of the map: the world, a door.
    Brush(usize),
    /// A player or a monster: a box around where it stands.
    Box(Vector3<f32>, Vector3<f32>),
}

pub struct Thing {
    pub origin: Vector3<f32>,
    pub shape: Shape,
}

/// A move of a box from one place to another.
pub struct Move {
    pub min: Vector3<f32>,
    pub max: Vector3<f32>,
    pub start: Vector3<f32>,
    pub end: Vector3<f32>,
}

pub struct World {
    models: Vec<Model>,
    things: Vec<Thing>,
}

impl World {
    pub fn load(file: Vec<u8>, things: Vec<Thing>) -> Result<World, String> {
        let (models, _entities) = load(Cursor::new(file)).map_err(|error| error.to_string())?;
        Ok(World { models, things })
    }

    fn brush(&self, index: usize) -> &BspModel {
        match self.models[index].kind() {
            ModelKind::Brush(model) => model,
            _ => panic!("a map has brush models alone"),
        }
    }

    /// The hull that something of this size meets at a thing, and where that hull stands.
    fn hull_for(
        &self,
        thing: &Thing,
        min: Vector3<f32>,
        max: Vector3<f32>,
    ) -> Result<(BspCollisionHull, Vector3<f32>), BspError> {
        match thing.shape {
            Shape::Brush(index) => {
                let size = max - min;
                let hull = self.brush(index).hull(match size.x {
                    x if x < 3.0 => 0,
                    x if x <= 32.0 => 1,
                    _ => 2,
                })?;
                let offset = hull.min() - min + thing.origin;
                Ok((hull, offset))
            }
            Shape::Box(thing_min, thing_max) => {
                let hull = BspCollisionHull::for_bounds(thing_min - max, thing_max - min)?;
                Ok((hull, thing.origin))
            }
        }
    }

    /// What a move meets at one thing.
    fn trace_against(&self, thing: &Thing, moved: &Move) -> Result<Trace, BspError> {
        let (hull, offset) = self.hull_for(thing, moved.min, moved.max)?;
        Ok(hull.trace(moved.start - offset, moved.end - offset)?.adjust(offset))
    }

    /// What a move meets first of all things, and which of them it is.
    pub fn collide(&self, moved: &Move) -> Result<(Trace, Option<usize>), BspError> {
        let mut nearest = self.trace_against(&self.things[0], moved)?;
        let mut touched = if nearest.is_terminal() { None } else { Some(0) };
        for (index, thing) in self.things.iter().enumerate().skip(1) {
            let trace = self.trace_against(thing, moved)?;
            if trace.all_solid() || trace.start_solid() || trace.ratio() < nearest.ratio() {
                nearest = trace;
                touched = Some(index);
            }
        }
        Ok((nearest, touched))
    }

    /// What is at a point of the world, in the hull of a point.
    pub fn contents(&self, point: Vector3<f32>) -> Result<BspLeafContents, BspError> {
        self.brush(0).hull(0)?.contents_at_point(point)
    }

    /// The leaf of a point, and the leaves that can be seen from there.
    pub fn visible(&self, point: Vector3<f32>) -> (usize, Vec<usize>) {
        let world = self.brush(0);
        let data = world.bsp_data();
        let leaf = data.find_leaf(point);
        (leaf, data.get_pvs(leaf, world.leaf_count + 1))
    }

    /// Every number of the answers to a move, floats by their bits.
    pub fn answers(&self, moved: &Move) -> Vec<u64> {
        let bits = |v: Vector3<f32>| [v.x, v.y, v.z].map(|x| u64::from(x.to_bits()));
        let (trace, touched) = match self.collide(moved) {
            Ok(found) => found,
            Err(_) => return Vec::new(),
        };
        let mut all = bits(trace.start_point()).to_vec();
        all.extend(bits(trace.end_point()));
        all.push(u64::from(trace.ratio().to_bits()));
        all.push(touched.map_or(u64::MAX, |thing| thing as u64));
        let flags = [trace.all_solid(), trace.start_solid(), trace.in_open(), trace.in_water()];
        all.extend(flags.map(u64::from));
        if let TraceEndKind::Boundary(boundary) = trace.end().kind() {
            all.extend(bits(boundary.plane.normal()));
            all.push(u64::from(boundary.plane.point_dist(moved.start).to_bits()));
            all.push(boundary.plane.point_side(moved.end) as u64);
        }
        all.push(self.contents(moved.end).map_or(0, |contents| contents as u64));
        let (leaf, seen) = self.visible(trace.end_point());
        all.push(leaf as u64);
        all.extend(seen.iter().map(|leaf| *leaf as u64));
        all
    }

    /// What a client is told of a map: its models and their leaves and faces.
    pub fn summary(&self) -> Vec<u64> {
        let mut all = vec![self.models.len() as u64];
        for index in 0..self.models.len() {
            let model = self.brush(index);
            let corners = [model.min(), model.max(), model.origin()];
            all.extend(corners.iter().flat_map(|v| [v.x, v.y, v.z]).map(|x| u64::from(x.to_bits())));
            all.extend(model.face_list().iter().map(|face| *face as u64));
            let data = model.bsp_data();
            for face in model.face_list().iter() {
                let corners = data.face_iter_vertices(*face);
                all.extend(corners.flat_map(|v| [v.x, v.y, v.z]).map(|x| u64::from(x.to_bits())));
            }
        }
        all
    }
}

//! A line through a drawing: the planes that it crosses, and where it ends.

use super::scene::{At, Color, Scene, RED};
use super::view::View;
use crate::map::{root_of, traces, Map};
use crate::trees::{node, Child};
use bsp29::{Hull, LineTrace, Refusal, Trace};

const PLANES: Color = [0x20, 0x90, 0x30];
const RICHTER: Color = [0x70, 0x20, 0xb0];

/// The most nodes that are looked at for crossings, which is more than a picture can show.
const MOST: usize = 4_096;

/// How far a plane's line is drawn on either side of the crossing, in pixels.
const REACH: f32 = 50.0;

/// A line and what both traces say of it.
pub struct Shot {
    from: [f32; 3],
    to: [f32; 3],
    line: LineTrace,
    trace: Trace,
    crossed: Vec<Crossing>,
}

/// Where a line crosses the plane of a node.
struct Crossing {
    point: [f32; 3],
    normal: [f32; 3],
}

/// Traces a line in a hull.
pub fn shoot(map: &Map<'_>, hull: &Hull, from: [f32; 3], to: [f32; 3]) -> Result<Shot, Refusal> {
    let (line, trace) = traces(map, hull, from, to)?;
    let crossed = crossings(map, hull, from, to, line.fraction)?;
    Ok(Shot { from, to, line, trace, crossed })
}

fn along(from: [f32; 3], to: [f32; 3], share: f32) -> [f32; 3] {
    std::array::from_fn(|axis| from[axis] + share * (to[axis] - from[axis]))
}

fn length(from: [f32; 3], to: [f32; 3]) -> f32 {
    (0..3).map(|axis| (to[axis] - from[axis]).powi(2)).sum::<f32>().sqrt()
}

/// The crossings up to the end of the line, the plane that it met counted.
fn crossings(
    map: &Map<'_>,
    hull: &Hull,
    from: [f32; 3],
    to: [f32; 3],
    fraction: f32,
) -> Result<Vec<Crossing>, Refusal> {
    let reach = length(from, to) * fraction + 0.5;
    let mut crossed = Vec::new();
    let (table, root) = root_of(hull);
    let mut left = vec![(Child::Node(root), from, to)];
    for _ in 0..MOST {
        let Some((child, start, end)) = left.pop() else { break };
        let Child::Node(index) = child else { continue };
        let record = node(map, table, index)?;
        let plane = map.planes().get(record.plane)?;
        let distance = |point: [f32; 3]| {
            (0..3).map(|axis| point[axis] * plane.normal[axis]).sum::<f32>() - plane.dist
        };
        let (first, last) = (distance(start), distance(end));
        match (first >= 0.0, last >= 0.0) {
            (true, true) => left.push((record.front, start, end)),
            (false, false) => left.push((record.back, start, end)),
            (in_front, _) => {
                let point = along(start, end, first / (first - last));
                // beyond the end nothing was met
                if length(from, point) <= reach {
                    crossed.push(Crossing { point, normal: plane.normal });
                }
                let (near, far) = match in_front {
                    true => (record.front, record.back),
                    false => (record.back, record.front),
                };
                left.extend([(far, point, end), (near, start, point)]);
            }
        }
    }
    Ok(crossed)
}

impl Shot {
    pub fn draw(&self, scene: &mut Scene, view: &View) {
        for crossing in &self.crossed {
            crossing.draw(scene, view);
        }
        let (from, to, end) =
            (view.place(self.from), view.place(self.to), view.place(self.line.end));
        scene.dashed(end, to, RED, 2.0);
        scene.line(from, end, RED, 3.0);
        scene.ring(from, 4.0, RED);
        cross(scene, end);
        scene.ring(view.place(self.trace.end), 8.0, RICHTER);
    }

    pub fn legend(&self) -> Vec<(Color, String)> {
        vec![
            (RED, format!("line, ends at {:.3}", self.line.fraction)),
            (PLANES, format!("{} planes crossed", self.crossed.len())),
            (RICHTER, "end of richter's trace".to_string()),
        ]
    }

    pub fn notes(&self) -> Vec<String> {
        let three = |[x, y, z]: [f32; 3]| format!("{x} {y} {z}");
        let solid = match (self.line.all_solid, self.line.start_solid) {
            (true, _) => " It is solid all along.",
            (false, true) => " It starts in a solid leaf.",
            (false, false) => "",
        };
        vec![format!(
            "The line goes from {} to {} and ends at {}.{solid}",
            three(self.from),
            three(self.to),
            three(self.line.end)
        )]
    }
}

impl Crossing {
    /// The plane's line through the crossing, seen from above; of a level plane only the crossing.
    fn draw(&self, scene: &mut Scene, view: &View) {
        let at = view.place(self.point);
        let [x, y, _] = self.normal;
        let size = x.hypot(y);
        if size > 1e-3 {
            // the picture's y goes down
            let way = [REACH * y / size, REACH * x / size];
            let ends = [[at[0] - way[0], at[1] - way[1]], [at[0] + way[0], at[1] + way[1]]];
            scene.line(ends[0], ends[1], PLANES, 1.0);
        }
        scene.ring(at, 2.0, PLANES);
    }
}

fn cross(scene: &mut Scene, at: At) {
    for way in [[6.0, 6.0], [6.0, -6.0]] {
        let ends = [[at[0] - way[0], at[1] - way[1]], [at[0] + way[0], at[1] + way[1]]];
        scene.line(ends[0], ends[1], RED, 3.0);
    }
}

//! Records of what loads, and planes.

use maps::record::{self, Tables};
use richter::{load, Map, Plane, Point};

use crate::trials::{plain, said, Trials};

pub fn records(t: &mut Trials) {
    let mut tables = Tables { edgelist: vec![i32::MIN, -5, 0], ..Tables::smallest() };
    let model = tables.models[0];
    tables.models = vec![
        record::Model { leaves: 3, min: [1.0, 2.0, 3.0], max: [4.0, 5.0, 6.0], ..model },
        record::Model { leaves: i32::MAX, roots: [1, 2, 7, 0], ..model },
        record::Model { leaves: 5, ..model },
    ];
    let map = load(&plain(&tables)).expect("loads");
    let entries: Vec<String> =
        map.edgelist().iter().map(|e| format!("{} {}", e.direction, e.index)).collect();
    t.check(
        "",
        "edge list -2147483648, -5, 0",
        "1 18446744071562067968; 1 5; 0 0",
        entries.join("; "),
    );
    let models = map.models();
    let ids: Vec<usize> = models.iter().map(|m| m.leaf_id).collect();
    t.check("", "leaf ids sum the counts before", "[0, 3, 2147483650]", format!("{ids:?}"));
    t.check("", "a model's min less 1", "[0.0, 1.0, 2.0]", format!("{:?}", models[0].min));
    t.check("", "a model's max plus 1", "[5.0, 6.0, 7.0]", format!("{:?}", models[0].max));
    t.check(
        "",
        "node counts wrap",
        "[18446744073709551615, 18446744073709551614, 18446744073709551609]",
        format!("{:?}", models[1].node_counts),
    );
    hulls(t, &map);
}

fn hulls(t: &mut Trials, map: &Map) {
    for index in 0..3 {
        let hull = map.hull(1, index).expect("a hull");
        let (low, high) = [
            ("[0.0, 0.0, 0.0]", "[0.0, 0.0, 0.0]"),
            ("[-16.0, -16.0, -24.0]", "[16.0, 16.0, 32.0]"),
            ("[-32.0, -32.0, -24.0]", "[32.0, 32.0, 64.0]"),
        ][index];
        t.check("", &format!("hull {index} mins"), low, format!("{:?}", hull.mins()));
        t.check("", &format!("hull {index} maxs"), high, format!("{:?}", hull.maxs()));
    }
    t.check("", "hull 3", "refused 20", said(map.hull(0, 3), |_| "a hull".into()));
    t.check("", "hull 4", "refused 20", said(map.hull(0, 4), |_| "a hull".into()));
    t.check("", "model 3 of 3", "refused 20", said(map.hull(3, 0), |_| "a hull".into()));
}

fn shown(p: Plane) -> String {
    let kind = ["x", "y", "z", "normal"][p.kind as usize];
    format!("{kind} {:?} {:?}", p.normal, p.dist)
}

pub fn planes(t: &mut Trials) {
    let new = |n: Point, d: f32| shown(Plane::new(n, d));
    t.check("", "normal (1, -0, 0)", "x [1.0, 0.0, 0.0] 5.0", new([1.0, -0.0, 0.0], 5.0));
    t.check("", "normal (2, 0, 0)", "normal [1.0, 0.0, 0.0] 5.0", new([2.0, 0.0, 0.0], 5.0));
    t.check("", "normal (0, 0, 0)", "normal [NaN, NaN, NaN] 5.0", new([0.0; 3], 5.0));
    t.check("", "normal of 2e19", "normal [0.0, 0.0, 0.0] 5.0", {
        // once normalised a zero vector, whose second normalising gives NaN
        let once = richter::plane::normalize([2.0e19, 0.0, 0.0]);
        format!("normal {once:?} 5.0")
    });
    t.check(
        "",
        "normal of 2e19, twice",
        "normal [NaN, NaN, NaN] 5.0",
        new([2.0e19, 0.0, 0.0], 5.0),
    );
    t.check("", "normal of 1.8e19", "normal [1.0, 0.0, 0.0] 5.0", new([1.8e19, 0.0, 0.0], 5.0));
    t.check("", "normal of 2e-23", "normal [NaN, NaN, NaN] 5.0", new([2.0e-23, 0.0, 0.0], 5.0));
    t.check(
        "",
        "axis x negated",
        "normal [-1.0, 0.0, 0.0] -5.0",
        shown(Plane::axis(0, 5.0).negate()),
    );
    t.check("", "and again", "x [1.0, 0.0, 0.0] 5.0", shown(Plane::axis(0, 5.0).negate().negate()));
    let infinite = Plane::axis(0, f32::INFINITY);
    let p = [f32::INFINITY, 0.0, 0.0];
    t.check("", "equal infinities, point_side", "0", infinite.point_side(p).to_string());
    t.check("", "equal infinities, distance", "NaN", format!("{:?}", infinite.point_dist(p)));
    t.check(
        "",
        "a NaN normal, point_side",
        "1",
        Plane::new([0.0; 3], -1.0).point_side([0.0; 3]).to_string(),
    );
}

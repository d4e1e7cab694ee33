//! The trials of document 01; those with a star are proved about the definitions too.

use maps::record::Tables;
use richter::{load, Hull};

use crate::extents::extent;
use crate::trials::{contents, list, loads, plain, row, traced, Trials};

pub fn marked(t: &mut Trials) {
    smallest(t);
    rows(t);
    cube(t);
    t.check("", "cast difference 125", "extent 2000", extent(125, 0));
    t.check("", "cast difference 126", "refused 12", extent(126, 0));
    t.check("★", "cast difference 2048", "extent -32768", extent(2048, 0));
    println!("  ★ both children the same node (34): the tree check, which the Rust does not have");
}

fn smallest(t: &mut Trials) {
    let smallest = plain(&Tables::smallest());
    t.check("★", "empty file", "refused 1", loads(&[]));
    let mut version = smallest.clone();
    version[0] = 28;
    t.check("★", "version 28", "refused 2", loads(&version));
    let none = Tables { models: vec![], ..Tables::smallest() };
    t.check("", "no model", "refused 6", loads(&plain(&none)));
    t.check("", "the 193-byte map", "loads", loads(&smallest));
    let map = load(&smallest).expect("the 193-byte map loads");
    let hull = map.hull(0, 1).expect("hull 1");
    t.check(
        "",
        "the 193-byte map, contents in hull 1",
        "refused 30",
        contents(hull.contents_at_point([0.0; 3])),
    );
}

fn rows(t: &mut Trials) {
    t.check("★", "row 5, 1 with leaf count 10", "[1, 3, 9]", list(row(&[5, 1]).get_pvs(1, 10)));
    t.check("★", "row 0, 1, 128 with 17", "[16]", list(row(&[0, 1, 128]).get_pvs(1, 17)));
    t.check("", "row 128 with 2, not cut", "[8]", list(row(&[128]).get_pvs(1, 2)));
    t.check("★", "row 0 alone with 2", "refused 33", list(row(&[0]).get_pvs(1, 2)));
    t.check("", "count 1", "[]", list(row(&[]).get_pvs(1, 1)));
}

fn cube(t: &mut Trials) {
    let cube = Hull::for_bounds([-1.0; 3], [1.0; 3]).expect("a box");
    t.check("★", "box, (-1, 0, 0)", "Solid", contents(cube.contents_at_point([-1.0, 0.0, 0.0])));
    t.check("★", "box, (1, 0, 0)", "Empty", contents(cube.contents_at_point([1.0, 0.0, 0.0])));
    for axis in 0..3 {
        let mut p = [0.0; 3];
        p[axis] = f32::NAN;
        t.check(
            "",
            &format!("box, NaN in place {axis}"),
            "Empty",
            contents(cube.contents_at_point(p)),
        );
    }
    t.check(
        "★",
        "box, trace (-3, 0, 0) to (5, 0, 0)",
        "boundary at [-1.0, 0.0, 0.0], ratio 0.5, normal [-1.0, 0.0, 0.0], dist 1.0, 6 visits",
        traced(cube.trace([-3.0, 0.0, 0.0], [5.0, 0.0, 0.0])),
    );
    t.check(
        "★",
        "box, trace (0, 0, 0) to (4, 0, 0)",
        "terminal at [1.0, 0.0, 0.0], started solid, 6 visits",
        traced(cube.trace([0.0; 3], [4.0, 0.0, 0.0])),
    );
}

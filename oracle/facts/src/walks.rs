//! Hulls, walks, traces and visibility.

use maps::record::Tables;
use richter::{load, Answer, Child, Hull, Node, Plane, Trace};

use crate::trials::{contents, leaf, list, plain, row, said, Trials};

/// A chain of nodes on x = 1, both children the next one unless `tree`.
fn chain(count: usize, tree: bool) -> Hull {
    let nodes: Vec<Node> = (0..count)
        .map(|at| {
            let next = Child::Node(at + 1);
            let children = match (at + 1 == count, tree) {
                (true, _) => [Child::Contents(1), Child::Contents(3)],
                (false, true) => [next, Child::Contents(2)],
                (false, false) => [next; 2],
            };
            Node { plane: 0, children }
        })
        .collect();
    Hull::by_hand(&[Plane::axis(0, 1.0)], &nodes, 0)
}

/// How many nodes a trace entered.
fn visits(answer: Answer<Trace>) -> String {
    let nodes = answer.nodes.len();
    said(answer.value, |_| format!("{nodes} visits"))
}

pub fn walks(t: &mut Trials) {
    chains(t);
    loops(t);
    outside(t);
    let bounds = |low: f32, high: f32| {
        said(Hull::for_bounds([low, 0.0, 0.0], [high, 1.0, 1.0]), |_| "a box".into())
    };
    t.check("", "a minimum at its maximum", "refused 21", bounds(1.0, 1.0));
    t.check("", "a minimum above its maximum", "refused 21", bounds(2.0, 1.0));
    t.check("", "a NaN minimum", "a box", bounds(f32::NAN, 1.0));
    far_starts(t);
    joins(t);
}

fn chains(t: &mut Trials) {
    let far = ([1.0e8, 0.0, 0.0], [0.0; 3]);
    t.check(
        "",
        "a chain of 512, traced on one side",
        "512 visits",
        visits(chain(512, true).trace([2.0; 3], [3.0; 3])),
    );
    t.check("", "a chain of 513", "refused 32", visits(chain(513, true).trace([2.0; 3], [3.0; 3])));
    t.check("", "512 shared nodes", "131328 visits", visits(chain(512, false).trace(far.0, far.1)));
    t.check("", "513 shared nodes", "refused 32", visits(chain(513, false).trace(far.0, far.1)));
    let deep = chain(30_000, true).contents_at_point([2.0; 3]);
    t.check("", "a walk down 30000 nodes", "30000 visits", {
        let nodes = deep.nodes.len();
        said(deep.value, |_| format!("{nodes} visits"))
    });
}

fn loops(t: &mut Trials) {
    let x = Plane::axis(0, 1.0);
    let loops = Hull::by_hand(
        &[x],
        &[Node { plane: 0, children: [Child::Node(0), Child::Contents(1)] }],
        0,
    );
    t.check(
        "",
        "a node that is its own child, walked",
        "refused 31",
        contents(loops.contents_at_point([2.0; 3])),
    );
    t.check(
        "",
        "the same, to the other side",
        "Empty",
        contents(loops.contents_at_point([0.0; 3])),
    );
    t.check("", "the same, traced", "refused 32", visits(loops.trace([2.0; 3], [2.0; 3])));
}

/// Nodes, planes and roots outside their tables.
fn outside(t: &mut Trials) {
    let x = Plane::axis(0, 1.0);
    let out = Hull::by_hand(
        &[x],
        &[Node { plane: 0, children: [Child::Node(1), Child::Contents(1)] }],
        0,
    );
    t.check("", "a child outside, walked", "refused 30", contents(out.contents_at_point([2.0; 3])));
    t.check("", "a child outside, traced", "refused 30", visits(out.trace([2.0; 3], [2.0; 3])));
    let plane = Hull::by_hand(&[x], &[Node { plane: 1, children: [Child::Contents(1); 2] }], 0);
    t.check(
        "",
        "a plane outside, walked",
        "refused 30",
        contents(plane.contents_at_point([2.0; 3])),
    );
    t.check(
        "",
        "a root outside, walked",
        "refused 30",
        contents(plane.with_root(1).contents_at_point([2.0; 3])),
    );
}

/// Starts that are infinite.
fn far_starts(t: &mut Trials) {
    // from a start at -inf a trace may say Solid where the point walk says Empty
    let low = Plane::axis(0, f32::NEG_INFINITY);
    let hull = Hull::by_hand(
        &[low],
        &[Node { plane: 0, children: [Child::Contents(1), Child::Contents(2)] }],
        0,
    );
    let start = [f32::NEG_INFINITY, 0.0, 0.0];
    t.check(
        "",
        "a start at -inf on a plane at -inf, walked",
        "Empty",
        contents(hull.contents_at_point(start)),
    );
    let same = hull.trace(start, start);
    t.check(
        "",
        "the same, traced",
        "contents 2",
        said(same.value, |t| format!("contents {}", t.contents)),
    );
}

fn joins(t: &mut Trials) {
    let x = Plane::axis(0, 1.0);
    let end = |kind| Trace::new([0.0; 3], 0.0, [1.0; 3], kind, 1).expect("contents 1 exist");
    let open = end(Some((0.5, x)));
    let joined = |a: Trace, b: Trace| said(a.join(b), |t| format!("ends at {:?}", t.end));
    let next = |start| Trace::new(start, 0.5, [2.0; 3], None, 1).expect("contents 1 exist");
    t.check("", "a join after a terminal trace", "refused 19", joined(end(None), next([1.0; 3])));
    t.check("", "a join of disjoint traces", "refused 19", joined(open, next([1.5; 3])));
    t.check("", "a join at NaN", "refused 19", joined(open, next([1.0, f32::NAN, 1.0])));
    t.check("", "a join", "ends at [2.0, 2.0, 2.0]", joined(open, next([1.0; 3])));
    t.check("", "the ratio of a terminal trace", "1.0", format!("{:?}", next([1.0; 3]).ratio()));
}

pub fn visibility(t: &mut Trials) {
    let none = load(&plain(&Tables::smallest())).expect("loads");
    t.check("", "leaf 0 of no leaves", "[]", list(none.get_pvs(0, 100)));
    t.check("", "leaf 1 of no leaves", "refused 20", list(none.get_pvs(1, 0)));
    let map = |visibility: i32| {
        let tables = Tables {
            visibility: vec![1, 2],
            leaves: vec![leaf(visibility); 2],
            ..Tables::smallest()
        };
        load(&plain(&tables)).expect("loads")
    };
    t.check("", "an offset past the data, count 0", "refused 33", list(map(3).get_pvs(1, 0)));
    t.check("", "an offset at the data's end, count 1", "[]", list(map(2).get_pvs(1, 1)));
    t.check("", "an offset at the data's end, count 2", "refused 33", list(map(2).get_pvs(1, 2)));
    t.check("", "no offset", "[]", list(map(-1).get_pvs(1, 100)));
    t.check(
        "",
        "the list is not cut at the leaf count",
        "[1, 2, 3, 4, 5, 6, 7, 8]",
        list(row(&[255]).get_pvs(1, 2)),
    );
    t.check("", "leaf 2 of 2", "refused 20", list(map(0).get_pvs(2, 1)));
}

//! A sum over many answers of the published Rust. `oracle/run notes` prints it with and without
//! the marked lines, which must not change an answer.

use std::collections::hash_map::DefaultHasher;
use std::fmt::Debug;
use std::hash::{Hash, Hasher};

use maps::{make, query, Plan, Seed, Shape};
use richter::{load, Hull, Map};

struct Sum {
    hasher: DefaultHasher,
    answers: u64,
}

impl Sum {
    fn take(&mut self, answer: impl Debug) {
        format!("{answer:?}").hash(&mut self.hasher);
        self.answers += 1;
    }
}

pub fn run() -> bool {
    let mut sum = Sum { hasher: DefaultHasher::new(), answers: 0 };
    for number in 0..4000 {
        let mut seed = Seed::new(number);
        // no loops: without the marked lines nothing ends them
        let shape = if seed.once_in(2) { Shape::Balanced } else { Shape::Chain };
        let plan = Plan { render_shape: shape, clip_shape: shape, ..Plan::any(&mut seed, 60) };
        let (tables, layout) = make(&mut seed, &plan);
        let file = tables.file(&layout);
        let map = match load(&file) {
            Ok(map) => map,
            Err(refusal) => panic!("seed {number}: refused {refusal}"),
        };
        tables_of(&mut sum, &map);
        for _ in 0..40 {
            let p = query::point(&mut seed, &tables.planes);
            let (start, end) = query::segment(&mut seed, &tables.planes);
            sum.take(map.find_leaf(p).value);
            for index in 0..3 {
                let hull: Hull = map.hull(0, index).expect("a hull");
                sum.take(hull.contents_at_point(p).value);
                sum.take(hull.trace(start, end).value);
            }
            let leaf = seed.below(plan.leaves as u64 + 1) as usize;
            sum.take(map.get_pvs(leaf, seed.below(80) as usize));
        }
    }
    println!("{} answers, sum {:016x}", sum.answers, sum.hasher.finish());
    true
}

fn tables_of(sum: &mut Sum, map: &Map) {
    sum.take(map.entities());
    sum.take(map.planes());
    sum.take(map.vertices());
    sum.take(map.visibility());
    sum.take(map.render_nodes());
    sum.take(map.faces());
    sum.take(map.clip_nodes());
    sum.take(map.render_nodes_as_clip_nodes());
    sum.take(map.leaves());
    sum.take(map.facelist());
    sum.take(map.edges());
    sum.take(map.edgelist());
    sum.take(map.models());
}

//! What the generator calls valid loads in the published Rust, and comes back as it was made.

use maps::{make, record, Plan, Seed, Tables};
use richter::map::RenderChild;
use richter::{load, Child, Map};

#[global_allocator]
static ROOM: richter::room::Room = richter::room::Room;

#[test]
fn the_smallest_map_has_193_bytes_and_loads() {
    let file = Tables::smallest().file(&maps::Layout::plain());
    assert_eq!(file.len(), 193);
    let map = load(&file).expect("loads");
    assert_eq!(map.models().len(), 1);
    assert_eq!(map.entities(), [0]);
}

#[test]
fn every_made_map_loads_and_holds_its_tables() {
    for number in 0..3000 {
        let mut seed = Seed::new(number);
        let plan = Plan::any(&mut seed, 40);
        let (tables, layout) = make(&mut seed, &plan);
        let file = tables.file(&layout);
        let map = match load(&file) {
            Ok(map) => map,
            Err(refusal) => panic!("seed {number}: refused {refusal}: {plan:?}"),
        };
        assert_eq!(map.entities(), tables.entities);
        assert_eq!(map.planes().len(), tables.planes.len());
        assert_eq!(map.vertices().len(), tables.vertices.len());
        assert_eq!(map.visibility(), tables.visibility);
        assert_eq!(map.lightmaps(), tables.lightmaps);
        render_nodes_are(&map, &tables);
        clip_nodes_are(&map, &tables);
        assert_eq!(map.texinfos().len(), tables.texinfos.len());
        for (texinfo, made) in map.texinfos().iter().zip(&tables.texinfos) {
            assert_eq!(texinfo.texture, made.texture as usize);
        }
        assert_eq!(map.faces().len(), tables.faces.len());
        assert_eq!(map.leaves().len(), tables.leaves.len());
        assert_eq!(map.facelist().len(), tables.facelist.len());
        assert_eq!(map.edges(), tables.edges);
        assert_eq!(map.edgelist().len(), tables.edgelist.len());
        assert_eq!(map.models().len(), tables.models.len());
    }
}

fn render_nodes_are(map: &Map, tables: &Tables) {
    let nodes = map.render_nodes();
    assert_eq!(nodes.len(), tables.render_nodes.len());
    for (node, made) in nodes.iter().zip(&tables.render_nodes) {
        assert_eq!(node.plane, made.plane as usize);
        for side in 0..2 {
            let child = made.children[side] as i32;
            let expected = if child < 0 {
                RenderChild::Leaf((-1 - child) as usize)
            } else {
                RenderChild::Node(child as usize)
            };
            assert_eq!(node.children[side], expected);
        }
    }
}

fn clip_nodes_are(map: &Map, tables: &Tables) {
    let nodes = map.clip_nodes();
    assert_eq!(nodes.len(), tables.clip_nodes.len());
    for (node, made) in nodes.iter().zip(&tables.clip_nodes) {
        assert_eq!(node.plane, made.plane as usize);
        for side in 0..2 {
            let child = made.children[side] as i32;
            let expected = if child < 0 {
                Child::Contents(-child as u32)
            } else {
                Child::Node(child as usize)
            };
            assert_eq!(node.children[side], expected);
        }
    }
}

#[test]
fn large_tables_load() {
    let mut seed = Seed::new(1);
    for shape in maps::shape::SHAPES {
        let plan = Plan {
            planes: 8192,
            render_nodes: 32_767,
            render_shape: shape,
            clip_nodes: 32_767,
            clip_shape: shape,
            leaves: 32_767,
            faces: 2000,
            textures: 5,
            visibility: 1_048_576,
            lightmaps: 100_000,
            models: 256,
            wild: 20,
            odd_layout: true,
        };
        let (tables, layout) = make(&mut seed, &plan);
        assert!(load(&tables.file(&layout)).is_ok(), "{shape:?}");
    }
}

#[test]
fn sizes_are_those_of_the_records() {
    let mut seed = Seed::new(5);
    let plan = Plan { faces: 3, textures: 1, ..Plan::any(&mut seed, 20) };
    let (tables, _) = make(&mut seed, &plan);
    let counts = [
        tables.entities.len(),
        tables.planes.len(),
        tables.textures.len(),
        tables.vertices.len(),
        tables.visibility.len(),
        tables.render_nodes.len(),
        tables.texinfos.len(),
        tables.faces.len(),
        tables.lightmaps.len(),
        tables.clip_nodes.len(),
        tables.leaves.len(),
        tables.facelist.len(),
        tables.edges.len(),
        tables.edgelist.len(),
        tables.models.len(),
    ];
    for (section, bytes) in tables.sections().iter().enumerate() {
        assert_eq!(bytes.len(), counts[section] * record::SIZES[section]);
    }
}

#[test]
fn damage_makes_every_number_of_loading() {
    // every refusal of loading is met, and nothing that has no number
    let mut met = std::collections::BTreeMap::new();
    for number in 0..60_000 {
        let mut seed = Seed::new(number);
        let plan = Plan::any(&mut seed, 6);
        let (tables, layout) = make(&mut seed, &plan);
        let file = maps::damage::random(&mut seed, &tables.file(&layout));
        let answer = match load(&file) {
            Ok(_) => "loads".to_string(),
            Err(refusal) => refusal.to_string(),
        };
        *met.entry(answer).or_insert(0) += 1;
    }
    println!("{met:?}");
    for number in [1, 2, 3, 4, 5, 6, 7, 9, 10, 11, 12] {
        assert!(met.contains_key(&number.to_string()), "{number} not met: {met:?}");
    }
}

//! Whatever the bytes, the map record, the hull and the numbers are, every call comes back.

mod common;

use bsp29::{BodySizes, Bounds, Hull, Map, NodeTable, Record, Records, Refusal};
use common::{rooms, smallest};

/// Numbers that follow from a seed (xorshift).
struct Seed(u64);

impl Seed {
    fn next(&mut self) -> u64 {
        self.0 ^= self.0 << 13;
        self.0 ^= self.0 >> 7;
        self.0 ^= self.0 << 17;
        self.0
    }
    fn below(&mut self, n: u64) -> u64 {
        self.next() % n
    }
    fn number(&mut self) -> usize {
        match self.below(3) {
            0 => self.below(50) as usize,
            1 => (u64::MAX - self.below(3)) as usize,
            _ => self.next() as usize,
        }
    }
    fn float(&mut self) -> f32 {
        match self.below(3) {
            0 => f32::from_bits(self.next() as u32),
            1 => [f32::NAN, f32::INFINITY, -f32::INFINITY, 0.0, -0.0][self.below(5) as usize],
            _ => self.below(300) as f32 - 150.0,
        }
    }
    fn point(&mut self) -> [f32; 3] {
        [self.float(), self.float(), self.float()]
    }
}

fn read_all<R: Record + std::fmt::Debug>(records: Records<'_, R>, seed: &mut Seed) -> usize {
    let _ = records.get(seed.number());
    records.iter().take(40).filter(|record| record.is_ok()).count()
}

/// What is put together from records, and the text: how many questions were answered.
fn surfaces(map: &Map, seed: &mut Seed) -> usize {
    let mut answered = 0;
    for number in [seed.number(), 0, 1] {
        if let Ok(corners) = map.face_vertices(number) {
            assert!(corners.len() <= 32_767);
            answered += corners.filter(|corner| corner.is_ok()).count();
        }
        for light in map.face_lightmaps(number).into_iter().flatten() {
            assert_eq!(light.data.len() as u64, u64::from(light.width) * u64::from(light.height));
            answered += 1;
        }
        answered += map.model_leaves(number).map_or(0, |leaves| leaves.take(40).count());
        answered += map.model_faces(number).map_or(0, |faces| faces.rev().take(40).count());
        answered += map.model_face_list(number).map_or(0, |list| list.take(40).count());
    }
    answered += usize::from(map.visibility().is_ok()) + usize::from(map.lightmaps().is_ok());
    answered + map.parsed_entities().map_or(0, |entities| entities.take(40).count())
}

/// Hulls of the map, and some made by hand.
fn hulls(map: &Map, seed: &mut Seed) -> Vec<Hull> {
    let tables = [NodeTable::Render, NodeTable::Clip, NodeTable::Box];
    let mut words = [0; 11].map(|_| seed.number() as u64);
    words[0] = [seed.below(3), seed.below(9)][seed.below(2) as usize];
    let made = Hull::new(tables[seed.below(3) as usize], seed.number());
    let made = made.with_bounds(seed.point(), seed.point());
    let mut body = || Bounds { mins: seed.point(), maxs: seed.point() };
    let sizes = BodySizes { hull_1: body(), hull_2: body() };
    let hulls = [
        Ok(made),
        Ok(Hull::from_words(words)),
        map.hull(0, seed.below(4) as usize),
        map.hull(seed.number(), 1),
        map.hull_with(&sizes, 0, seed.below(4) as usize),
        map.hull_with(&sizes, seed.number(), 2),
    ];
    hulls.into_iter().flatten().collect()
}

/// Asks every question about a hull.
fn ask_hull(map: &Map, seed: &mut Seed, hull: &Hull) -> usize {
    let mut answered = 0;
    let (a, b) = (seed.point(), seed.point());
    answered += usize::from(map.contents(hull, a).is_ok());
    answered += usize::from(map.contents_nodes(hull, a).is_ok());
    answered += usize::from(map.trace(hull, a, b).is_ok());
    answered += usize::from(map.trace_line(hull, a, b).is_ok());
    answered += usize::from(map.trace_nodes(hull, a, b).is_ok());
    answered += usize::from(map.find_leaf_nodes(hull.root(), a).is_ok());
    answered += usize::from(map.tree_check(hull.table(), hull.root()).is_ok());
    answered += usize::from(map.hull_check(hull).is_ok());
    answered += usize::from(map.contents_box(hull, a, b).is_ok());
    answered += usize::from(map.contents_at_points(hull, &[a, b, a]).is_ok());
    if let Ok(ordered) = map.order(hull.table(), hull.root()) {
        assert_eq!(ordered.contents(a), map.contents(&Hull::new(hull.table(), hull.root()), a));
        answered += usize::from(ordered.trace(a, b).is_ok());
    }
    answered
}

/// Asks every question, and says how many were answered.
fn ask(map: &Map, seed: &mut Seed) -> usize {
    let mut answered = 0;
    answered += read_all(map.planes(), seed);
    answered += read_all(map.vertices(), seed);
    answered += read_all(map.render_nodes(), seed);
    answered += read_all(map.texture_infos(), seed);
    answered += read_all(map.faces(), seed);
    answered += read_all(map.clip_nodes(), seed);
    answered += read_all(map.leaves(), seed);
    answered += read_all(map.face_list(), seed);
    answered += read_all(map.edges(), seed);
    answered += read_all(map.edge_list(), seed);
    answered += read_all(map.models(), seed);
    let _ = (map.entities(), map.entity_text(), map.texture_count());
    answered += surfaces(map, seed);
    for hull in hulls(map, seed) {
        answered += ask_hull(map, seed, &hull);
    }
    answered += usize::from(map.find_leaf(seed.point()).is_ok());
    answered += usize::from(map.find_leaf_from(seed.number(), seed.point()).is_ok());
    let seen = map.visible_leaves(seed.below(8) as usize, seed.number());
    assert_ne!(seen, Err(Refusal::ListTooShort));
    let players: Vec<usize> = (0..seed.below(18)).map(|_| seed.below(8) as usize).collect();
    let pool = map.visible_to_team(&players, seed.number());
    assert_ne!(pool, Err(Refusal::ListTooShort));
    let _ = (format!("{map:?}"), map.accept());
    answered + usize::from(seen.is_ok()) + usize::from(pool.is_ok())
}

/// From a root that passed the tree check every walk and trace is answered and enters no node twice.
/// Says how many roots passed.
fn passed(map: &Map, seed: &mut Seed) -> usize {
    let mut passed = 0;
    for table in [NodeTable::Render, NodeTable::Clip] {
        let root = seed.below(25) as usize;
        let Ok(height) = map.tree_check(table, root) else { continue };
        passed += 1;
        let hull = Hull::new(table, root);
        let hull = map.hull_check(&hull).unwrap();
        assert_eq!(hull.height(), height);
        let (a, b) = (seed.point(), seed.point());
        assert!(map.contents(&hull, a).unwrap().1 <= height as u64);
        let mut nodes = map.trace_nodes(&hull, a, b).unwrap();
        assert_eq!(nodes.len() as u64, map.trace(&hull, a, b).unwrap().visits);
        nodes.sort_unstable();
        assert!(nodes.windows(2).all(|pair| pair[0] < pair[1]), "{nodes:?}");
        assert!(nodes.len() <= hull.nodes());
    }
    passed
}

#[test]
fn damaged_files() {
    let mut seed = Seed(29);
    let (mut loaded, mut answered, mut roots) = (0, 0, 0);
    for _ in 0..4000 {
        let mut file = if seed.below(4) == 0 { smallest() } else { rooms() };
        for _ in 0..seed.below(4) {
            let at = seed.below(file.len() as u64) as usize;
            file[at] = seed.next() as u8;
        }
        if seed.below(8) == 0 {
            file.truncate(seed.below(file.len() as u64) as usize);
        }
        if let Ok(map) = Map::load(&file) {
            loaded += 1;
            answered += ask(&map, &mut seed);
            roots += passed(&map, &mut seed);
        }
    }
    assert!(loaded > 500 && answered > 10_000 && roots > 500, "{loaded} {answered} {roots}");
}

#[test]
fn map_records_made_by_hand() {
    let mut seed = Seed(34);
    let rooms = rooms();
    let loaded = *Map::load(&rooms).unwrap().words();
    let mut answered = 0;
    for _ in 0..4000 {
        let mut words = loaded;
        for _ in 0..1 + seed.below(6) {
            words[seed.below(31) as usize] = match seed.below(3) {
                0 => seed.next() as u32,
                1 => u32::MAX - seed.below(3) as u32,
                _ => seed.below(3000) as u32,
            };
        }
        let end = if seed.below(3) == 0 { seed.below(2000) as usize } else { rooms.len() };
        answered += ask(&Map::from_words(&rooms[..end], words), &mut seed);
    }
    assert!(answered > 10_000, "{answered}");
}

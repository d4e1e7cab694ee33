//! Maps that a map compiler made (`oracle/real-maps`): every record, and of every model's hulls walks,
//! traces, lists of nodes, trees, boxes, many points, walking order and whole lines; the row of every
//! leaf, teams, textures, acceptance; beside the published Rust and the program on paper as in the modes
//! about generated maps. Beside them what bspinfo reads in the same file (`bspinfo`), and id Software's own
//! point contents, hull check and unpacking of rows (`peers`). Then the same on damaged copies.

mod bspinfo;
mod peers;

use std::fs;
use std::path::Path;

use maps::record::Plane;
use maps::{damage, floats, Seed};
use richter::Hull;

use crate::calls::asked::Asked;
use crate::calls::words;
use crate::calls::{Calls, HULL_WORDS};
use crate::cases::tables;
use crate::modes::json::Json;
use crate::modes::records::{self, map_of_header};
use crate::modes::walks::{self, PATIENCE};
use crate::modes::{accept, bodies, boxes, line, loads, order, points, pvs, team, textures, tree};
use crate::paper;
use crate::report::board::{Board, Plan, Side};

/// A compiled map, and what bspinfo says of it.
struct Compiled {
    name: String,
    file: Vec<u8>,
    told: Json,
}

/// How many points and segments are asked of each hull of the world, and of a further model.
#[derive(Copy, Clone)]
struct Amount {
    world: usize,
    model: usize,
    /// Models that are asked about: the first ones.
    models: usize,
    boxes: usize,
    /// Calls about many points.
    many: usize,
    teams: usize,
}

/// Of a whole map, and of a damaged copy.
const WHOLE: Amount =
    Amount { world: 2_000, model: 300, models: 256, boxes: 40, many: 8, teams: 60 };
const DAMAGED: Amount = Amount { world: 6, model: 2, models: 3, boxes: 1, many: 1, teams: 2 };

pub fn run(folder: &str, plan: &Plan) -> bool {
    let calls = Calls::linked();
    let mut board = Board::new();
    let found = compiled(Path::new(folder));
    if found.is_empty() {
        println!("no compiled maps in {folder}");
        return false;
    }
    richter::probe::set_patience(PATIENCE);
    for map in &found {
        let mut seed = Seed::named(plan.seed, &map.name);
        if plan.from == 0 {
            whole(&mut board, &calls, &mut seed, map, plan.quick);
        }
        for (case, mut seed) in plan.seeds("real") {
            damaged(&mut board, &calls, &mut seed, map, case);
        }
    }
    richter::probe::set_patience(usize::MAX);
    let equal = board.print();
    let differ = if equal { "0 differ" } else { "some differ" };
    println!("{} maps, {} calls of the library, {differ}", found.len(), board.calls());
    equal
}

/// The maps of the folder by their names, each with what bspinfo says.
fn compiled(folder: &Path) -> Vec<Compiled> {
    let Ok(entries) = fs::read_dir(folder) else { return Vec::new() };
    let mut paths: Vec<_> = entries.filter_map(|entry| entry.ok().map(|e| e.path())).collect();
    paths.retain(|path| path.extension().is_some_and(|kind| kind == "bsp"));
    paths.sort();
    paths
        .into_iter()
        .map(|path| {
            let name = path.file_stem().expect("a name").to_string_lossy().into_owned();
            let told = fs::read(path.with_extension("bsp.json")).expect("bspinfo's file");
            let told = String::from_utf8_lossy(&told).into_owned();
            let told = Json::parse(&told).expect("bspinfo's file reads");
            Compiled { name, file: fs::read(path).expect("a map"), told }
        })
        .collect()
}

/// Everything that is asked of a whole map.
fn whole(board: &mut Board, calls: &Calls, seed: &mut Seed, map: &Compiled, quick: bool) {
    let Compiled { name, file, told } = map;
    let name_of = || name.clone();
    loads::one(board, calls, seed, name_of, file);
    let loaded = richter::load(file);
    let difference = loaded.as_ref().err().map(|refusal| format!("the Rust refuses: {refusal}"));
    board.count("Rust, compiled maps", (0, Side::Rust), difference, || (file.len(), name.clone()));
    let Ok(rust) = loaded else { return };
    let words = map_of_header(file);
    let asked = Asked { calls, name: &name_of, file, map: &words };
    records::tables_of(board, &asked, seed, &rust, u64::MAX);
    let amount = match quick {
        true => Amount { world: 100, model: 20, boxes: 4, many: 2, teams: 6, ..WHOLE },
        false => WHOLE,
    };
    questions(board, &asked, seed, &rust, amount);
    rows(board, &asked, seed, &rust);
    textures::load(board, calls, &name_of, file);
    textures::accessors(board, &asked, seed);
    let verdict = accept::one(board, calls, seed, (file, &words), &name_of);
    accepted(board, &asked, &rust, verdict);
    peers::all(board, &asked, seed, &rust, if quick { 100 } else { 2_000 });
    bspinfo::all(board, &asked, told);
    print_map(&asked, &rust, verdict);
}

/// A compiled map is accepted, or refused with 35 for one reason alone: a visibility tool makes rows for
/// the world's leaves, and acceptance asks for rows of all leaves, the further models' too.
fn accepted(board: &mut Board, asked: &Asked, rust: &richter::Map, verdict: u32) {
    let all = rust.leaves().len();
    let world = rust.models()[0].leaf_count + 1;
    let whole = |count: usize| (1..all).all(|leaf| rust.get_pvs(leaf, count).is_ok());
    let (line, holds) = match verdict {
        0 => ("compiled maps accepted", whole(all)),
        _ => {
            ("compiled maps refused with 35 for rows", verdict == 35 && !whole(all) && whole(world))
        }
    };
    let difference = (!holds).then(|| format!("acceptance {verdict}"));
    board.count(line, (0, Side::Paper), difference, || asked.input(String::new()));
}

/// A line about a map: its records, and the verdict of acceptance.
fn print_map(asked: &Asked, rust: &richter::Map, verdict: u32) {
    let page = asked.paper();
    let count = |section: usize| page.count(section);
    println!(
        "{:<18} {:>7} bytes: {} planes, {} nodes, {} clip nodes, {} leaves ({} of the world), {} faces, {} models, {} textures, {} bytes of rows; {}",
        (asked.name)(),
        asked.file.len(),
        count(paper::PLANES),
        count(paper::RENDER_NODES),
        count(paper::CLIP_NODES),
        count(paper::LEAVES),
        rust.models()[0].leaf_count,
        count(paper::FACES),
        count(paper::MODELS),
        page.texture_count,
        page.size(paper::VISIBILITY),
        match verdict {
            0 => "accepted".to_string(),
            number => format!("acceptance {number}"),
        }
    );
}

/// A copy with bytes, fields or places of sections changed, or cut; what is asked of it if it loads.
fn damaged(board: &mut Board, calls: &Calls, seed: &mut Seed, map: &Compiled, case: u64) {
    let mut copy = map.file.clone();
    match case % 4 {
        0 => copy = damage::random(seed, &copy),
        1 => copy = loads::odd_places(seed, &copy),
        _ => {
            for _ in 0..1 + seed.below(4) {
                copy = loads::one_field(seed, &copy);
            }
        }
    }
    let name = || format!("{}, damage {case}", map.name);
    loads::one(board, calls, seed, name, &copy);
    let (Ok(rust), _) = loads::rust_verdict(&copy) else { return };
    board.count("damaged copies that load", (0, Side::Rust), None, || (0, String::new()));
    let words = map_of_header(&copy);
    let asked = Asked { calls, name: &name, file: &copy, map: &words };
    questions(board, &asked, seed, &rust, DAMAGED);
    accept::one(board, calls, seed, (&copy, &words), &name);
}

/// The box of a model and the planes of its map, for points and segments.
struct Place {
    least: [f32; 3],
    most: [f32; 3],
    planes: Vec<Plane>,
    /// A player, who moves a little from point to point.
    player: [f32; 3],
}

impl Place {
    fn of(rust: &richter::Map, model: usize) -> Place {
        let model = &rust.models()[model];
        let plane =
            |p: &richter::Plane| Plane { normal: p.normal, dist: p.dist, kind: p.kind as i32 };
        let planes = rust.planes().iter().map(plane).collect();
        let least = model.min.map(|x| x - 40.0);
        let most = model.max.map(|x| x + 40.0);
        Place { least, most, planes, player: [0, 1, 2].map(|n| (least[n] + most[n]) / 2.0) }
    }

    fn anywhere(&self, seed: &mut Seed) -> [f32; 3] {
        let along = |n: usize, part: f32| self.least[n] + part * (self.most[n] - self.least[n]);
        [0, 1, 2].map(|n| along(n, floats::half(seed) + 0.5))
    }

    /// A point anywhere, where the player went, on or next to an axis plane, or of `tables`.
    fn point(&mut self, seed: &mut Seed, n: usize) -> [f32; 3] {
        match n % 8 {
            0 => self.player = self.anywhere(seed),
            1..=3 => self.player = self.player.map(|x| x + 8.0 * floats::half(seed)),
            4 | 5 if !self.planes.is_empty() => {
                let plane = self.planes[seed.below(self.planes.len() as u64) as usize];
                let mut p = self.anywhere(seed);
                if (0..3).contains(&plane.kind) {
                    let near = seed.below(3) as u32;
                    p[plane.kind as usize] = match near {
                        0 => plane.dist,
                        _ => floats::nudged(seed, plane.dist, 2),
                    };
                }
                return p;
            }
            6 => return tables::point(seed, &self.planes),
            _ => return self.anywhere(seed),
        }
        self.player
    }

    /// A segment of any length from such a point, along an axis or not, or of `tables`.
    fn segment(&mut self, seed: &mut Seed, n: usize) -> [f32; 6] {
        if n % 16 == 15 {
            return tables::segment(seed, &self.planes);
        }
        let p = self.point(seed, n);
        let length = [0.5, 32.0, 300.0, 4000.0][seed.below(4) as usize];
        let mut way = floats::unit(seed);
        if seed.once_in(3) {
            let axis = seed.below(3) as usize;
            way = [0, 1, 2].map(|at| if at == axis { way[at].signum() } else { 0.0 });
        }
        let q = match seed.once_in(4) {
            true => self.anywhere(seed),
            false => [0, 1, 2].map(|at| p[at] + length * way[at]),
        };
        [p[0], p[1], p[2], q[0], q[1], q[2]]
    }
}

/// Every hull of every model, leaf lookups from its render nodes, and teams.
fn questions(
    board: &mut Board,
    asked: &Asked,
    seed: &mut Seed,
    rust: &richter::Map,
    amount: Amount,
) {
    for model in 0..rust.models().len().min(amount.models) {
        let mut place = Place::of(rust, model);
        let many = if model == 0 { amount.world } else { amount.model };
        for index in 0..3 {
            let Ok(hull) = rust.hull(model, index) else { continue };
            let at = (model as u64, index as u64);
            walks::one_hull(board, asked, seed, rust, at, &place.planes);
            bodies::one(board, asked, Some(rust), &bodies::words_of(seed), at, HULL_WORDS);
            of_hull(board, asked, seed, (rust, &hull), index, &mut place, (many, amount));
        }
        let Ok(hull) = rust.hull(model, 0) else { continue };
        leaves(board, asked, seed, rust, hull.root(), &mut place, many);
    }
    let count = rust.leaves().len() as u64;
    for _ in 0..amount.teams {
        let players = 1 + seed.below(16);
        let players: Vec<u64> = (0..players).map(|_| seed.below(count.max(1))).collect();
        let world = rust.models()[0].leaf_count as u64 + 1;
        let leaf_count = [world, count, seed.below(count + 9)][seed.below(3) as usize];
        team::ask(board, asked, seed, Some(rust), (&players, leaf_count));
    }
}

/// One hull: its tree, then points, segments, boxes, many points and its nodes in walking order.
fn of_hull(
    board: &mut Board,
    asked: &Asked,
    seed: &mut Seed,
    (rust, hull): (&richter::Map, &Hull),
    index: usize,
    place: &mut Place,
    (many, amount): (usize, Amount),
) {
    let table = index.min(1) as u32;
    let words = words::hull(table as u64, hull);
    tree::of_root(board, asked, seed, rust, (table, words[1]));
    let checked = line::is_checked(asked, &words);
    for n in 0..many {
        let p = place.point(seed, n);
        walks::contents(board, asked, seed, &words, Some(hull), p);
        let s = place.segment(seed, n);
        walks::trace(board, asked, seed, &words, Some(hull), s);
        line::one(board, asked, seed, (&words, checked), s);
    }
    for n in 0..amount.boxes {
        let bounds = bounds(seed, place, n);
        if let Some(set) = boxes::one(board, asked, seed, &words, &bounds) {
            boxes::points(board, asked, seed, (hull, set), &bounds);
        }
    }
    for _ in 0..amount.many {
        let count = [1, 8, 64, 1_024][seed.below(4) as usize];
        let floats: Vec<f32> = (0..count).flat_map(|n| place.point(seed, n)).collect();
        points::one(board, asked, seed, &words, Some(hull), &floats);
    }
    in_order(board, asked, seed, hull, (table, words[1]), place, many / 4 + 1);
}

/// A player's box around a point, one of any size, or one point.
fn bounds(seed: &mut Seed, place: &mut Place, n: usize) -> [f32; 6] {
    let p = place.point(seed, n % 4);
    let (mins, maxs) = match n % 4 {
        0 => ([-16.0, -16.0, -24.0], [16.0, 16.0, 32.0]),
        1 => ([-32.0, -32.0, -24.0], [32.0, 32.0, 64.0]),
        2 => ([0.0; 3], [0.0; 3]),
        _ => (
            [0; 3].map(|_| -200.0 * floats::half(seed).abs()),
            [0; 3].map(|_| 200.0 * floats::half(seed).abs()),
        ),
    };
    let at = |n: usize, by: [f32; 3]| p[n] + by[n];
    [at(0, mins), at(1, mins), at(2, mins), at(0, maxs), at(1, maxs), at(2, maxs)]
}

/// The nodes of a root in walking order, and walks and traces by them.
fn in_order(
    board: &mut Board,
    asked: &Asked,
    seed: &mut Seed,
    hull: &Hull,
    (table, root): (u32, u64),
    place: &mut Place,
    many: usize,
) {
    let section = [paper::RENDER_NODES, paper::CLIP_NODES][table as usize];
    let count = asked.paper().count(section);
    for _ in 0..3 {
        let Some(list) = order::written(board, asked, seed, table, root, count) else { continue };
        for n in 0..many {
            let p = place.point(seed, n);
            order::contents(board, asked, &list, 0, &p, Some(hull));
            let s = place.segment(seed, n);
            order::trace(board, asked, &list, 0, &s, Some(hull));
        }
        return;
    }
}

/// Leaf lookups from node 0 and from a model's root.
fn leaves(
    board: &mut Board,
    asked: &Asked,
    seed: &mut Seed,
    rust: &richter::Map,
    root: usize,
    place: &mut Place,
    many: usize,
) {
    let finder = rust.leaf_finder(root);
    for n in 0..many {
        let p = place.point(seed, n);
        let found = if root == 0 { rust.find_leaf(p) } else { finder.find_leaf(p) };
        walks::find_leaf(board, asked, seed, root as u64, p, Some(found));
    }
}

/// The row of every leaf, for the world's leaves, for all leaves and for other counts.
fn rows(board: &mut Board, asked: &Asked, seed: &mut Seed, rust: &richter::Map) {
    let count = rust.leaves().len() as u64;
    let world = rust.models()[0].leaf_count as u64 + 1;
    for leaf in 0..=count {
        for leaf_count in [world, count, seed.below(count + 30)] {
            pvs::ask(board, asked, seed, rust, (leaf, leaf_count));
        }
    }
}

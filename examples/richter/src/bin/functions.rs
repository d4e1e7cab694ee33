//! What the crate bsp29 adds to the proved calls, in plain Rust, beside richter's own functions: planes and
//! traces with special floats, and the faces, models and lightmaps of maps made from a seed.
//!
//!     functions [CASES [SEED]]     compares so many cases of each kind (1,000,000 if not said)
//!     functions --store            prints some of richter's answers, for rust/bsp29/tests/richter.txt
//!
//! Every NaN counts as one. It ends with status 1 if an answer differs.

use bsp29::{Contents, Lightmap, Map, PlaneKind, Side, TraceEnd};
use maps::{floats, Plan, Seed};
use richter::common::bsp::{self, BspData, BspModel};
use richter::common::model::ModelKind;
use richter::refusal::catch;
use richter::{Plane, Trace};
use std::io::Cursor;
use std::process::ExitCode;

const CODES: [u32; 12] = [1, 2, 3, 4, 5, 6, 9, 10, 11, 12, 13, 14];

fn bits(x: f32) -> u32 {
    if x.is_nan() {
        f32::NAN.to_bits()
    } else {
        x.to_bits()
    }
}

fn point(seed: &mut Seed) -> [f32; 3] {
    [floats::float(seed), floats::float(seed), floats::float(seed)]
}

/// A plane that holds its parts; the normal of an axis plane is the axis.
fn plane(seed: &mut Seed) -> Plane {
    let normal = if seed.once_in(4) { point(seed) } else { floats::normal(seed) };
    Plane::held(seed.below(4) as u32, normal, floats::float(seed))
}

fn trace(seed: &mut Seed) -> Trace {
    Trace {
        start: point(seed),
        start_ratio: floats::float(seed),
        end: point(seed),
        boundary: (!seed.once_in(4)).then(|| (floats::float(seed), plane(seed))),
        contents: CODES[[seed.below(3), seed.below(12)][seed.below(2) as usize] as usize],
        start_solid: seed.once_in(2),
    }
}

fn our_plane(plane: Plane) -> bsp29::Plane {
    let kinds = [PlaneKind::X, PlaneKind::Y, PlaneKind::Z, PlaneKind::Normal];
    bsp29::Plane { kind: kinds[plane.kind as usize], normal: plane.normal, dist: plane.dist }
}

fn our_trace(trace: Trace) -> bsp29::Trace {
    bsp29::Trace {
        start: trace.start,
        start_ratio: trace.start_ratio,
        end: trace.end,
        kind: trace.boundary.map_or(TraceEnd::Terminal, |(ratio, plane)| TraceEnd::Boundary {
            ratio,
            plane: our_plane(plane),
        }),
        contents: Contents::from_code(trace.contents).unwrap(),
        start_solid: trace.start_solid,
        visits: 0,
    }
}

/// A trace as sixteen words: contents, started solid, start and its ratio, end, whether it is at a plane,
/// the ratio there, and the plane's kind, normal and distance.
fn words(trace: Trace) -> Vec<u32> {
    let mut words = vec![trace.contents, u32::from(trace.start_solid)];
    words.extend(trace.start.map(bits));
    words.push(bits(trace.start_ratio));
    words.extend(trace.end.map(bits));
    match trace.boundary {
        None => words.extend([0; 7]),
        Some((ratio, plane)) => {
            words.extend([1, bits(ratio), plane.kind]);
            words.extend(plane.normal.map(bits));
            words.push(bits(plane.dist));
        }
    }
    words
}

fn our_words(trace: bsp29::Trace) -> Vec<u32> {
    let boundary = match trace.kind {
        TraceEnd::Terminal => None,
        TraceEnd::Boundary { ratio, plane } => {
            let (kind, normal, dist) = (plane.kind as u32, plane.normal, plane.dist);
            Some((ratio, Plane { kind, normal, dist }))
        }
    };
    words(Trace {
        start: trace.start,
        start_ratio: trace.start_ratio,
        end: trace.end,
        boundary,
        contents: trace.contents.code(),
        start_solid: trace.start_solid,
    })
}

/// The questions to a trace.
fn asked(trace: Trace) -> Vec<u32> {
    let flags = [
        trace.is_terminal(),
        trace.all_solid(),
        trace.start_solid(),
        trace.in_open(),
        trace.in_water(),
    ];
    [bits(trace.ratio())].into_iter().chain(flags.map(u32::from)).collect()
}

fn our_asked(trace: bsp29::Trace) -> Vec<u32> {
    let flags = [
        trace.is_terminal(),
        trace.all_solid(),
        trace.start_solid,
        trace.in_open(),
        trace.in_water(),
    ];
    [bits(trace.ratio())].into_iter().chain(flags.map(u32::from)).collect()
}

/// The second of two traces starts where the first ends, as often as not.
fn two_traces(seed: &mut Seed) -> (Trace, Trace) {
    let (first, mut second) = (trace(seed), trace(seed));
    if !seed.once_in(3) {
        second.start = first.end;
    }
    (first, second)
}

/// The joined trace, or the one word 19.
fn joined(first: Trace, second: Trace) -> Vec<u32> {
    first.join(second).map_or(vec![19], words)
}

/// How many cases were compared and how many differed, by the name of what was asked.
#[derive(Default)]
struct Tally(Vec<(&'static str, u64, u64)>);

impl Tally {
    fn same<T: PartialEq + std::fmt::Debug>(&mut self, name: &'static str, theirs: T, ours: T) {
        let at = self.0.iter().position(|line| line.0 == name).unwrap_or_else(|| {
            self.0.push((name, 0, 0));
            self.0.len() - 1
        });
        let (_, cases, differ) = &mut self.0[at];
        *cases += 1;
        if theirs != ours {
            if *differ == 0 {
                eprintln!("{name}: richter {theirs:?}, bsp29 {ours:?}");
            }
            *differ += 1;
        }
    }
}

fn compare_floats(tally: &mut Tally, seed: &mut Seed) {
    let (at, one) = (point(seed), plane(seed));
    let ours = our_plane(one);
    tally.same("Plane::point_dist", bits(one.point_dist(at)), bits(ours.point_dist(at)));
    let side = u32::from(ours.point_side(at) == Side::Back);
    tally.same("Plane::point_side", one.point_side(at), side);

    let (first, second) = two_traces(seed);
    let offset = point(seed);
    let adjusted = our_words(our_trace(first).adjust(offset));
    tally.same("Trace::adjust", words(first.adjust(offset)), adjusted);
    tally.same("Trace's questions", asked(first), our_asked(our_trace(first)));
    let ours = our_trace(first).join(our_trace(second));
    let ours = ours.map_or_else(|refusal| vec![refusal.number()], our_words);
    tally.same("Trace::join", joined(first, second), ours);
    let (kind, contents) = (our_trace(first).kind, our_trace(first).contents);
    let made =
        Trace::new(first.start, first.start_ratio, first.end, first.boundary, first.contents);
    let ours = bsp29::Trace::new(first.start, first.start_ratio, first.end, kind, contents);
    tally.same("Trace::new", made.map(words), Some(our_words(ours)));
}

/// The faces and models of one map, where richter panics none.
fn compare_map(tally: &mut Tally, file: &[u8]) {
    let Ok(Ok((models, _))) = catch(|| bsp::load(Cursor::new(file))) else { return };
    let Ok(map) = Map::load(file) else { return tally.same("loads", true, false) };
    let models: Vec<BspModel> = models
        .into_iter()
        .filter_map(|model| match model.kind {
            ModelKind::Brush(model) => Some(model),
            _ => None,
        })
        .collect();
    let data = models[0].bsp_data();
    tally.same("lightmaps", Some(data.lightmaps()), map.lightmaps().ok());
    for face in 0..data.faces().len() {
        compare_face(tally, &data, &map, face);
    }
    for (index, model) in models.iter().enumerate() {
        let theirs = catch(|| model.iter_leaves().map(|leaf| leaf.contents as u32).collect());
        let ours = map
            .model_leaves(index)
            .map(|leaves| leaves.map(|leaf| leaf.unwrap().contents.code()).collect::<Vec<u32>>());
        tally.same("model_leaves", theirs.ok(), ours.ok());
        let theirs = catch(|| model.face_list().to_vec());
        let ours = map.model_face_list(index);
        let ours = ours.map(|list| list.map(|entry| entry.unwrap().face).collect());
        tally.same("model_face_list", theirs.ok(), ours.ok());
    }
}

/// The corners and the light of one face.
fn compare_face(tally: &mut Tally, data: &BspData, map: &Map, face: usize) {
    let theirs = catch(|| {
        data.face_iter_vertices(face).map(|v| [v.x, v.y, v.z].map(bits)).collect::<Vec<_>>()
    });
    let ours = map.face_vertices(face).and_then(|corners| {
        corners.map(|corner| corner.map(|point| point.map(bits))).collect::<Result<Vec<_>, _>>()
    });
    tally.same("face_vertices", theirs.ok(), ours.ok());
    let theirs = catch(|| {
        let lights = data.face_lightmaps(face);
        let plain = |l: &bsp::BspLightmap| (l.width(), l.height(), l.data().to_vec());
        lights.iter().map(plain).collect::<Vec<_>>()
    });
    let ours = map.face_lightmaps(face).map(|lights| {
        let plain = |l: &Lightmap| (l.width, l.height, l.data.to_vec());
        lights.iter().map(plain).collect::<Vec<_>>()
    });
    // of an extent that wrapped richter multiplies the size in 32 bits, and here it is refused
    if ours.is_ok() || data.faces()[face].extents.iter().all(|extent| *extent >= 0) {
        tally.same("face_lightmaps", theirs.ok(), ours.ok());
    }
}

fn text(words: &[u32]) -> String {
    words.iter().map(|word| format!(" {word:x}")).collect()
}

/// Some of richter's answers, a case to a line: what is asked, its words, and after = those of the answer.
fn store() {
    let mut seed = Seed::named(28, "stored");
    println!("# Answers of richter, made by examples/richter (functions --store); tests/richter.rs reads them.");
    println!("# Every number is hexadecimal, floats by their bits.");
    for _ in 0..150 {
        let (at, one) = (point(&mut seed), plane(&mut seed));
        let mut given = vec![one.kind];
        given.extend(one.normal.map(bits));
        given.push(bits(one.dist));
        given.extend(at.map(bits));
        let answer = [bits(one.point_dist(at)), one.point_side(at)];
        println!("plane{} ={}", text(&given), text(&answer));
    }
    for _ in 0..60 {
        let (one, offset) = (trace(&mut seed), point(&mut seed));
        let given = [words(one), offset.map(bits).to_vec()].concat();
        println!("adjust{} ={}", text(&given), text(&words(one.adjust(offset))));
        println!("asked{} ={}", text(&words(one)), text(&asked(one)));
    }
    for _ in 0..120 {
        let (first, second) = two_traces(&mut seed);
        let given = [words(first), words(second)].concat();
        println!("join{} ={}", text(&given), text(&joined(first, second)));
    }
}

fn main() -> ExitCode {
    let words: Vec<String> = std::env::args().skip(1).collect();
    if words.first().is_some_and(|word| word == "--store") {
        store();
        return ExitCode::SUCCESS;
    }
    let number =
        |at: usize, usual: u64| words.get(at).map_or(Some(usual), |word| word.parse().ok());
    let (Some(cases), Some(seed)) = (number(0, 1_000_000), number(1, 28)) else {
        eprintln!("usage: functions [CASES [SEED]], functions --store");
        return ExitCode::from(2);
    };
    let mut tally = Tally::default();
    let mut floats = Seed::named(seed, "floats");
    for _ in 0..cases {
        compare_floats(&mut tally, &mut floats);
    }
    let mut maps = Seed::named(seed, "maps");
    for _ in 0..cases / 100 {
        let plan = Plan::any(&mut maps, 40);
        let (tables, layout) = maps::make(&mut maps, &plan);
        compare_map(&mut tally, &tables.file(&layout));
    }
    for (name, cases, differ) in &tally.0 {
        println!("{name}: {cases} cases, {differ} differ");
    }
    ExitCode::from(u8::from(tally.0.iter().any(|line| line.2 > 0)))
}

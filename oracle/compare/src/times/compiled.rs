//! Point contents, leaf lookup and traces by the calls for C and by the safe crate, each beside the
//! published Rust, on compiled maps and on the generated ones.
//!
//! The three sides take turns on parts of the inputs; the least time of each part counts, so that what
//! else the machine does disturbs few of them. Contents and leaves are asked at points anywhere in the
//! world's box, and at points of players who start in the open and move little. Segments start at points
//! of the first kind and at players.

use std::fs;
use std::hint::black_box;
use std::path::Path;

use maps::{floats, Seed};
use richter::{Hull, Map};

use super::bench::{segment, timed, INPUTS, PLAYERS};
use crate::calls::{self, words, TRACE_WORDS};

/// The compiled maps, by the names of their sources.
const NAMES: [&str; 6] = ["corridors", "vaults", "pools", "lock", "court", "nave"];

/// Points or segments timed together: few enough that some parts are undisturbed in every slice, and so
/// many that reading the clock does not count.
const PART: usize = 2_500;

/// The maps of a folder that `oracle/real-maps` filled, with visibility and light; else those that are
/// kept in `maps/`.
pub(super) fn files(folder: Option<&str>) -> Vec<(&'static str, Vec<u8>)> {
    let kept = Path::new(concat!(env!("CARGO_MANIFEST_DIR"), "/../../maps"));
    let mut found = Vec::new();
    for name in NAMES {
        let made = folder.map(|folder| Path::new(folder).join(format!("{name}-vis-lit.bsp")));
        let file = made.and_then(|path| fs::read(path).ok());
        if let Some(file) = file.or_else(|| fs::read(kept.join(format!("{name}.bsp"))).ok()) {
            found.push((name, file));
        }
    }
    found
}

/// A map to be timed: its name, its bytes and the box that points are taken from.
type Timed = (&'static str, Vec<u8>, [[f32; 3]; 2]);

/// Prints a table of the compiled maps and then of further ones; false if an answer differed.
pub fn run(folder: Option<&str>, slices: u64, seed: u64, further: Vec<Timed>) -> bool {
    println!("ns a call; ratio: proved / Rust, by the call for C and by the crate");
    println!(
        "{:<10} {:<26} {:>7} {:>8} {:>8} {:>7} {:>8} {:>7}",
        "map", "call", "visits", "Rust", "C", "ratio", "crate", "ratio"
    );
    let compiled = files(folder).into_iter().map(|(name, file)| (name, file, None));
    let further = further.into_iter().map(|(name, file, within)| (name, file, Some(within)));
    let mut equal = true;
    for (name, file, within) in compiled.chain(further) {
        let mut map = [0; 31];
        let (0, Ok(rust)) = (calls::load(&file, &mut map), richter::load(&file)) else {
            println!("{name:<10} is refused");
            return false;
        };
        let world = &rust.models()[0];
        let within = within.unwrap_or([world.min, world.max]);
        let (file, map, rust) = (&file[..], &map, &rust);
        let mut rows = Rows { name, slices, file, map, rust, within, equal: true };
        rows.all(&mut Seed::named(seed ^ 0x5eed, name));
        equal &= rows.equal;
    }
    equal
}

/// One side over a part of the inputs: the sum of its answers, and the visits where it knows them.
type Side<'a, T> = Box<dyn FnMut(&[T]) -> (u64, u64) + 'a>;

struct Rows<'a> {
    name: &'static str,
    slices: u64,
    file: &'a [u8],
    map: &'a [u32; 31],
    rust: &'a Map,
    within: [[f32; 3]; 2],
    equal: bool,
}

/// The map and a hull of the world as the crate has them.
fn in_crate(file: &[u8], index: usize) -> (bsp29::Map<'_>, bsp29::Hull) {
    let map = bsp29::Map::load(file).expect("the map loads");
    let hull = map.hull(0, index).expect("a hull");
    (map, hull)
}

impl Rows<'_> {
    fn all(&mut self, seed: &mut Seed) {
        let anywhere: Vec<[f32; 3]> = (0..INPUTS).map(|_| self.place(seed)).collect();
        let near = self.players(seed);
        for (points, kind) in [(&anywhere, ""), (&near, ", near")] {
            for index in 0..3 {
                self.contents(index, points, kind);
            }
            self.leaves(points, kind);
        }
        for (points, kind) in [(&anywhere, ""), (&near, ", near")] {
            for (length, long) in [(100.0, "short"), (1000.0, "long")] {
                let segments: Vec<[f32; 6]> =
                    points.iter().map(|p| segment(seed, *p, length)).collect();
                for index in 0..3 {
                    self.traces(index, &segments, &format!(", {long}{kind}"));
                }
            }
        }
    }

    /// A point of the map's box.
    fn place(&self, seed: &mut Seed) -> [f32; 3] {
        let [min, max] = self.within;
        [0, 1, 2].map(|n| min[n] + (floats::half(seed) + 0.5) * (max[n] - min[n]))
    }

    /// Players who start where hull 1 is not solid, asked in turn; each moves up to four units along each
    /// axis, and stays where the way is solid.
    fn players(&self, seed: &mut Seed) -> Vec<[f32; 3]> {
        const SOLID: u32 = 2;
        let hull = self.rust.hull(0, 1).expect("a hull");
        let open = |p: &[f32; 3]| hull.bare_contents(*p) != SOLID;
        // of many places the open ones; where there are none, any
        let places: Vec<[f32; 3]> = (0..INPUTS).map(|_| self.place(seed)).collect();
        let mut now: Vec<[f32; 3]> = places.iter().copied().filter(open).take(PLAYERS).collect();
        now.extend(&places[..PLAYERS - now.len()]);
        (0..INPUTS)
            .map(|n| {
                let player = &mut now[n % PLAYERS];
                let next = player.map(|x| x + 8.0 * floats::half(seed));
                if open(&next) {
                    *player = next;
                }
                *player
            })
            .collect()
    }

    fn contents(&mut self, index: usize, points: &[[f32; 3]], kind: &str) {
        let hull = self.rust.hull(0, index).expect("a hull");
        let words = words::hull(index.min(1) as u64, &hull);
        let (file, map) = (self.file, self.map);
        let mut out = [0; 2];
        let by_c = move |points: &[[f32; 3]]| {
            let mut sums = (0, 0);
            for p in points {
                let point = black_box(*p);
                calls::contents(file, map, &words, &point, &mut out);
                sums = (sums.0 + out[0], sums.1 + out[1]);
            }
            sums
        };
        let by_crate = {
            let (map, hull) = in_crate(self.file, index);
            move |points: &[[f32; 3]]| {
                let mut sums = (0, 0);
                for p in points {
                    let found = map.contents(&hull, black_box(*p)).expect("contents");
                    sums = (sums.0 + found.0 as u64, sums.1 + found.1);
                }
                sums
            }
        };
        let name = format!("contents, hull {index}{kind}");
        let sides: [Side<[f32; 3]>; 3] =
            [Box::new(by_rust(&hull)), Box::new(by_c), Box::new(by_crate)];
        self.row(&name, points, sides);
    }

    fn leaves(&mut self, points: &[[f32; 3]], kind: &str) {
        let (file, map, rust) = (self.file, self.map, self.rust);
        let mut out = [0; 2];
        let by_c = move |points: &[[f32; 3]]| {
            let mut sums = (0, 0);
            for p in points {
                let point = black_box(*p);
                calls::find_leaf(file, map, 0, &point, &mut out);
                sums = (sums.0 + out[0], sums.1 + out[1]);
            }
            sums
        };
        let by_rust = move |points: &[[f32; 3]]| {
            (points.iter().map(|p| rust.bare_find_leaf(black_box(*p)) as u64).sum(), 0)
        };
        let by_crate = {
            let (map, _) = in_crate(self.file, 0);
            move |points: &[[f32; 3]]| {
                let mut sums = (0, 0);
                for p in points {
                    let (leaf, visits) = map.find_leaf(black_box(*p)).expect("a leaf");
                    sums = (sums.0 + leaf as u64, sums.1 + visits);
                }
                sums
            }
        };
        let sides: [Side<[f32; 3]>; 3] = [Box::new(by_rust), Box::new(by_c), Box::new(by_crate)];
        self.row(&format!("find_leaf{kind}"), points, sides);
    }

    fn traces(&mut self, index: usize, segments: &[[f32; 6]], kind: &str) {
        let hull = self.rust.hull(0, index).expect("a hull");
        let words = words::hull(index.min(1) as u64, &hull);
        let (file, map) = (self.file, self.map);
        let ends = |s: [f32; 6]| ([s[0], s[1], s[2]], [s[3], s[4], s[5]]);
        let mut out = [0; TRACE_WORDS];
        let by_c = move |segments: &[[f32; 6]]| {
            let mut sums = (0, 0);
            for s in segments {
                let segment = black_box(*s);
                calls::trace(file, map, &words, &segment, &mut out);
                sums = (sums.0 + out[2], sums.1 + out[0]);
            }
            sums
        };
        let by_rust = |segments: &[[f32; 6]]| {
            let mut sum = 0;
            for s in segments {
                let (start, end) = ends(black_box(*s));
                sum += black_box(hull.bare_trace(start, end)).start_solid() as u64;
            }
            (sum, 0)
        };
        let by_crate = {
            let (map, hull) = in_crate(self.file, index);
            move |segments: &[[f32; 6]]| {
                let mut sums = (0, 0);
                for s in segments {
                    let (start, end) = ends(black_box(*s));
                    let trace = black_box(map.trace(&hull, start, end).expect("a trace"));
                    sums = (sums.0 + trace.start_solid as u64, sums.1 + trace.visits);
                }
                sums
            }
        };
        let name = format!("trace, hull {index}{kind}");
        let sides: [Side<[f32; 6]>; 3] = [Box::new(by_rust), Box::new(by_c), Box::new(by_crate)];
        self.row(&name, segments, sides);
    }

    /// Times the sides by turns on every part of the inputs and prints the sums of the least times.
    fn row<T>(&mut self, name: &str, inputs: &[T], mut sides: [Side<T>; 3]) {
        let told = sides.each_mut().map(|side| side(inputs));
        // the crate's own numbers of contents need not be the codes
        let equal = told[0].0 == told[1].0 && told[1].1 == told[2].1;
        let parts: Vec<&[T]> = inputs.chunks(PART).collect();
        let mut least = vec![[f64::MAX; 3]; parts.len()];
        for _ in 0..self.slices {
            for turn in 0..parts.len() {
                // each at another part, and the Rust between the two that read the same bytes, so that
                // none finds in the caches what another has just read
                for (place, which) in [0, 1, 0, 2].into_iter().enumerate() {
                    let at = (turn + place * parts.len() / 4) % parts.len();
                    let time = timed(&mut || sides[which](parts[at]).0);
                    least[at][which] = least[at][which].min(time);
                }
            }
        }
        let count = inputs.len() as f64;
        let [rust, by_c, by_crate] =
            [0, 1, 2].map(|side| least.iter().map(|least| least[side]).sum::<f64>() / count);
        println!(
            "{:<10} {name:<26} {:>7.1} {rust:>8.1} {by_c:>8.1} {:>7.2} {by_crate:>8.1} {:>7.2}{}",
            self.name,
            told[1].1 as f64 / count,
            by_c / rust,
            by_crate / rust,
            if equal { "" } else { "  the answers differ" }
        );
        self.equal &= equal;
    }
}

fn by_rust(hull: &Hull) -> impl FnMut(&[[f32; 3]]) -> (u64, u64) + '_ {
    |points| (points.iter().map(|p| hull.bare_contents(black_box(*p)) as u64).sum(), 0)
}

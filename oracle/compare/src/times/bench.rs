//! The time of each call beside the published Rust, in one run over the same maps: generated ones, and
//! compiled ones (`compiled`).
//!
//! Each slice runs both sides over the same inputs, one after the other; the least time of many
//! slices counts. Both sides take a point or a segment that the compiler knows nothing of as a
//! value: a pointer with its length handed through `black_box` would be stored as two words and read
//! back as one, which stalls the processor on one side only. Build without the feature `notes`: the
//! marked lines take time.

use std::hint::black_box;

use maps::world::{tables, World, SIDE};
use maps::{floats, Layout, Seed};
use richter::{Hull, Trace};

use crate::calls::words;
use crate::calls::{self, LINE_WORDS, TRACE_WORDS};
use crate::report::board::Plan;
use crate::times::{compiled, textures};

/// Points and segments asked a slice: more than a processor's branch prediction remembers. With a
/// thousand, asked over and over, it predicts the sides of the planes for the points themselves, and
/// the Rust's times move by a quarter with what runs between.
pub const INPUTS: usize = 50_000;

/// Points that move little: so many players, asked in turn, each of whom moves up to four units along
/// each axis from one time that it is asked to the next.
pub const PLAYERS: usize = 64;

/// A small map whose trees are not balanced, beside the generated ones, which are.
const ROOMS: &[u8] = include_bytes!("../../../../maps/rooms.bsp");

/// Points or segments timed together where three sides are compared.
const PART: usize = 500;

/// Leaves asked for their lists a slice.
const LISTS: usize = 1_000;

/// Teams of 16 players asked for their pooled lists a slice.
const TEAMS: usize = 100;

/// Points asked at once, and the part of the map's side that a room takes.
const AT_ONCE: [usize; 5] = [1_024, 64, 8, 2, 1];
const ROOM: f32 = 1.0 / 16.0;

/// Loading and the tree check, one call a slice, take so many times the slices.
const SINGLE: u64 = 10;

pub fn run(plan: &Plan, folder: Option<&str>) -> bool {
    if cfg!(feature = "notes") {
        println!("built with the marked lines: the Rust's times are too high");
    }
    println!(
        "least of {} slices, of load and tree check {}; ratio: proved / Rust",
        plan.cases,
        SINGLE * plan.cases
    );
    println!(
        "{:<9} {:<26} {:>12} {:>12} {:>7} {:>10} {:>10}",
        "map", "call", "ns a call", "Rust", "ratio", "ns a part", "Rust"
    );
    println!("team: beside 16 calls of bsp_pvs and a merge by the caller, in the Rust's columns");
    println!("*line: bsp_trace_line, beside bsp_trace in the place of the Rust; a part is a call");
    let mut equal = true;
    for (name, world) in worlds() {
        let mut seed = Seed::named(plan.seed, name);
        let file = tables(&mut seed, &world).file(&Layout::plain());
        let mut table = Table { name, slices: plan.cases, equal: true };
        of_map(&mut table, &mut seed, &file);
        equal &= table.equal;
    }
    let mut table = Table { name: "rooms", slices: plan.cases, equal: true };
    of_rooms(&mut table, &mut Seed::named(plan.seed, "rooms"), ROOMS);
    equal &= table.equal;
    equal &= run_real(plan, folder);
    equal &= run_points(plan, folder);
    textures::run();
    equal
}

/// The calls for C and the crate, on compiled maps and on these ones.
pub fn run_real(plan: &Plan, folder: Option<&str>) -> bool {
    let made = worlds().map(|(name, world)| {
        let file = tables(&mut Seed::named(plan.seed, name), &world).file(&Layout::plain());
        (name, file, [[-SIDE; 3], [SIDE; 3]])
    });
    compiled::run(folder, plan.cases, plan.seed, made.to_vec())
}

/// The maps, by their names.
fn worlds() -> [(&'static str, World); 3] {
    let axis = World { nodes: 10_000, slanted: 0, visibility: 200_000, lightmaps: 0, faces: 500 };
    [
        ("axis", axis),
        ("slanted", World { slanted: 40, ..axis }),
        (
            "large",
            World {
                nodes: 32_000,
                slanted: 10,
                visibility: 1_000_000,
                lightmaps: 1_000_000,
                faces: 16_000,
            },
        ),
    ]
}

/// Many points in one call, on the same maps and on compiled ones.
pub fn run_points(plan: &Plan, folder: Option<&str>) -> bool {
    println!(
        "many points in one call: ns a point, beside a call for each point and the Rust's calls"
    );
    println!(
        "{:<10} {:<14} {:>6} {:>7} {:>8} {:>8} {:>8} {:>8} {:>8}",
        "map", "points", "n", "reads", "many", "alone", "Rust", "/ alone", "/ Rust"
    );
    let mut equal = true;
    for (name, world) in worlds() {
        let mut seed = Seed::named(plan.seed, name);
        let file = tables(&mut seed, &world).file(&Layout::plain());
        let of = |rust: &richter::Map, number| rust.table(number).with_root(0);
        equal &= many_points((name, plan.cases), &mut seed, &file, Some([[-SIDE; 3], [SIDE; 3]]), of);
    }
    for (name, file) in compiled::files(folder) {
        let mut seed = Seed::named(plan.seed, name);
        let of = |rust: &richter::Map, number| rust.hull(0, number).expect("a hull");
        equal &= many_points((name, plan.cases), &mut seed, &file, None, of);
    }
    equal
}

/// Where the lines of one map go.
struct Table {
    name: &'static str,
    slices: u64,
    equal: bool,
}

impl Table {
    /// Times both sides by turns. Each side's answer is a sum over its answers; `parts` is how many
    /// nodes, leaves or bytes a slice of `calls` calls goes through.
    fn line(
        &mut self,
        call: &str,
        (calls, parts): (usize, u64),
        mut ours: impl FnMut() -> u64,
        rust: Option<&mut dyn FnMut() -> u64>,
    ) {
        let mut least = [f64::MAX; 2];
        let mut none = || 0;
        let has_rust = rust.is_some();
        let rust = rust.unwrap_or(&mut none);
        if has_rust && ours() != rust() {
            println!("{:<9} {call:<26} the answers differ", self.name);
            self.equal = false;
        }
        for _ in 0..self.slices {
            least[0] = least[0].min(timed(&mut ours));
            if has_rust {
                least[1] = least[1].min(timed(&mut *rust));
            }
        }
        self.row(call, (calls, parts), least, has_rust);
    }

    /// One line: ns a call and a part for both sides.
    fn row(&self, call: &str, (calls, parts): (usize, u64), least: [f64; 2], has_rust: bool) {
        let a_call = least.map(|time| time / calls as f64);
        let a_part = least.map(|time| time / parts.max(1) as f64);
        let rust = |text: String| if has_rust { text } else { "-".to_string() };
        println!(
            "{:<9} {call:<26} {:>12.1} {:>12} {:>7} {:>10.2} {:>10}",
            self.name,
            a_call[0],
            rust(format!("{:.1}", a_call[1])),
            rust(format!("{:.2}", a_call[0] / a_call[1])),
            a_part[0],
            rust(format!("{:.2}", a_part[1])),
        );
    }
}

pub fn timed(side: &mut (impl FnMut() -> u64 + ?Sized)) -> f64 {
    let start = clock();
    black_box(side());
    clock() - start
}

/// The processor time of this thread in nanoseconds: other work on the machine does not count.
pub(crate) fn clock() -> f64 {
    #[repr(C)]
    struct Time {
        seconds: i64,
        nanoseconds: i64,
    }
    extern "C" {
        fn clock_gettime(clock: i32, time: *mut Time) -> i32;
    }
    const THREAD: i32 = 3;
    let mut time = Time { seconds: 0, nanoseconds: 0 };
    // SAFETY: the C library's call fills the two words, as 64-bit Linux has them
    let failed = unsafe { clock_gettime(THREAD, &mut time) };
    assert_eq!(failed, 0, "the thread's clock");
    time.seconds as f64 * 1e9 + time.nanoseconds as f64
}

/// The words of a map's record, and the Rust's map.
fn both(table: &mut Table, file: &[u8]) -> Option<([u32; 31], richter::Map)> {
    let mut map = [0u32; 31];
    let refusal = calls::load(file, &mut map);
    let Ok(rust) = richter::load(file) else { panic!("the Rust refuses {}", table.name) };
    if refusal != 0 {
        println!("{:<9} bsp_load refuses: {refusal}", table.name);
        table.equal = false;
        return None;
    }
    Some((map, rust))
}

/// Point contents and leaf lookup on a real map: points anywhere in its box, and points that move little.
fn of_rooms(table: &mut Table, seed: &mut Seed, file: &[u8]) {
    let Some((map, rust)) = both(table, file) else { return };
    let models = map[2 * 14] as usize;
    let float = |n: usize| {
        let at = models + 4 * n;
        f32::from_le_bytes(file[at..at + 4].try_into().expect("four bytes"))
    };
    let mins = [0, 1, 2].map(float);
    let maxs = [3, 4, 5].map(float);
    let place = |seed: &mut Seed| {
        [0, 1, 2].map(|n| mins[n] + (floats::half(seed) + 0.5) * (maxs[n] - mins[n]))
    };
    let anywhere: Vec<[f32; 3]> = (0..INPUTS).map(|_| place(seed)).collect();
    let near = players(seed, place);
    for (points, kind) in [(&anywhere, ""), (&near, ", near")] {
        for (number, nodes) in [(1, "clip"), (0, "render")] {
            let hull = rust.table(number).with_root(0);
            let words = words::hull(number as u64, &hull);
            contents(table, (file, &map, &words), &hull, &format!("{nodes}{kind}"), points);
        }
        find_leaf(table, (file, &map), &rust, kind, points);
    }
}

/// Points of players that start anywhere.
fn players(seed: &mut Seed, place: impl Fn(&mut Seed) -> [f32; 3]) -> Vec<[f32; 3]> {
    let mut now: Vec<[f32; 3]> = (0..PLAYERS).map(|_| place(seed)).collect();
    (0..INPUTS)
        .map(|n| {
            let player = &mut now[n % PLAYERS];
            *player = player.map(|x| x + 8.0 * floats::half(seed));
            *player
        })
        .collect()
}

fn of_map(table: &mut Table, seed: &mut Seed, file: &[u8]) {
    let Some((map, rust)) = both(table, file) else { return };
    load(table, file);
    let points: Vec<[f32; 3]> = (0..INPUTS).map(|_| point(seed)).collect();
    let near = players(&mut Seed::named(0, table.name), point);
    for (number, nodes) in [(1, "clip"), (0, "render")] {
        let hull = rust.table(number).with_root(0);
        let words = words::hull(number as u64, &hull);
        contents(table, (file, &map, &words), &hull, nodes, &points);
        contents(table, (file, &map, &words), &hull, &format!("{nodes}, near"), &near);
        let list = in_order(table, (file, &map), number as u32);
        order_contents(table, (file, &map, &words), (&list, &hull), nodes, &points);
        for (length, name) in [(100.0, "short"), (4000.0, "long")] {
            let segments: Vec<[f32; 6]> =
                points.iter().map(|p| segment(seed, *p, length)).collect();
            let name = format!("{nodes}, {name}");
            traces(table, (file, &map, &words), &hull, &name, &segments);
            order_traces(table, (file, &map, &words), (&list, &hull), &name, &segments);
            lines(table, (file, &map, &words), &name, &segments);
        }
    }
    find_leaf(table, (file, &map), &rust, "", &points);
    find_leaf(table, (file, &map), &rust, ", near", &near);
    lists(table, seed, (file, &map), &rust);
    team(table, seed, (file, &map), rust.leaves().len() as u64 - 1);
    for (number, nodes) in [(1, "clip"), (0, "render")] {
        tree_check(table, (file, &map), number, nodes);
    }
    accept(table, (file, &map));
}

fn point(seed: &mut Seed) -> [f32; 3] {
    [0; 3].map(|_| floats::half(seed) * 2.0 * SIDE)
}

pub fn segment(seed: &mut Seed, p: [f32; 3], length: f32) -> [f32; 6] {
    let way = floats::unit(seed);
    [p[0], p[1], p[2], p[0] + length * way[0], p[1] + length * way[1], p[2] + length * way[2]]
}

/// Loading; the Rust's map is dropped while no clock runs.
fn load(table: &mut Table, file: &[u8]) {
    let mut map = [0u32; 31];
    let mut least = [f64::MAX; 2];
    for _ in 0..SINGLE * table.slices {
        least[0] = least[0].min(timed(&mut || calls::load(black_box(file), &mut map) as u64));
        let start = clock();
        let loaded = black_box(richter::load(black_box(file)));
        least[1] = least[1].min(clock() - start);
        drop(loaded);
    }
    table.row("load", (1, file.len() as u64), least, true);
}

type Lent<'a> = (&'a [u8], &'a [u32], &'a [u64]);

fn contents(
    table: &mut Table,
    (file, map, words): Lent,
    hull: &Hull,
    nodes: &str,
    points: &[[f32; 3]],
) {
    let mut out = [0; 2];
    let mut visits = 0;
    for p in points {
        assert_eq!(calls::contents(file, map, words, p, &mut out), 0, "contents");
        visits += out[1];
    }
    let ours = || walked((file, map, words), points);
    let mut rust = || rust_walked(hull, points);
    let name = format!("contents, {nodes}");
    table.line(&name, (points.len(), visits), ours, Some(&mut rust));
}

/// The contents by the file, summed.
fn walked((file, map, words): Lent, points: &[[f32; 3]]) -> u64 {
    let mut out = [0; 2];
    let mut sum = 0;
    for p in points {
        let point = black_box(*p);
        calls::contents(file, map, words, &point, &mut out);
        sum += out[0];
    }
    sum
}

/// The same of the Rust.
fn rust_walked(hull: &Hull, points: &[[f32; 3]]) -> u64 {
    points.iter().map(|p| hull.bare_contents(black_box(*p)) as u64).sum()
}

fn traces(
    table: &mut Table,
    (file, map, words): Lent,
    hull: &Hull,
    name: &str,
    segments: &[[f32; 6]],
) {
    let mut out = [0; TRACE_WORDS];
    let mut visits = 0;
    for s in segments {
        assert_eq!(calls::trace(file, map, words, s, &mut out), 0, "trace");
        visits += out[0];
        let (start, end) = ends(s);
        let expected = words::trace(Trace::of(&hull.bare_trace(start, end)), out[0]);
        if out[..] != expected[..] {
            println!("{:<9} trace {name}: the answers differ", table.name);
            table.equal = false;
            break;
        }
    }
    let ours = || traced((file, map, words), segments);
    let mut rust = || rust_traced(hull, segments);
    let name = format!("trace, {name}");
    table.line(&name, (segments.len(), visits), ours, Some(&mut rust));
}

fn ends(s: &[f32; 6]) -> ([f32; 3], [f32; 3]) {
    ([s[0], s[1], s[2]], [s[3], s[4], s[5]])
}

/// The traces by the file: the sum of one word of each.
fn traced((file, map, words): Lent, segments: &[[f32; 6]]) -> u64 {
    let mut out = [0; TRACE_WORDS];
    let mut sum = 0;
    for s in segments {
        let segment = black_box(*s);
        calls::trace(file, map, words, &segment, &mut out);
        sum += out[2];
    }
    sum
}

/// The same of the Rust.
fn rust_traced(hull: &Hull, segments: &[[f32; 6]]) -> u64 {
    let mut sum = 0;
    for s in segments {
        let (start, end) = ends(black_box(s));
        sum += black_box(hull.bare_trace(start, end)).start_solid() as u64;
    }
    sum
}

/// Whole-line traces, ours alone: the Rust has none. Beside them stands our own `bsp_trace` of the
/// same segments, which as a rule ends earlier.
fn lines(table: &mut Table, (file, map, words): Lent, name: &str, segments: &[[f32; 6]]) {
    let mut out = [0; LINE_WORDS];
    for s in segments {
        assert_eq!(calls::trace_line(file, map, words, s, &mut out), 0, "trace_line");
    }
    let mut least = [f64::MAX; 2];
    for _ in 0..table.slices {
        least[0] = least[0].min(timed(&mut || {
            let mut sum = 0;
            for s in segments {
                let segment = black_box(*s);
                calls::trace_line(file, map, words, &segment, &mut out);
                sum += out[0];
            }
            sum
        }));
        least[1] = least[1].min(timed(&mut || traced((file, map, words), segments)));
    }
    table.row(&format!("*line, {name}"), (segments.len(), segments.len() as u64), least, true);
}

/// Nodes from node 0 on in walking order; the time of writing them, ours alone.
fn in_order(table: &mut Table, (file, map): (&[u8], &[u32]), number: u32) -> Vec<i32> {
    let section = if number == 0 { 5 } else { 9 };
    let count = map[2 * section + 1] as usize / maps::record::SIZES[section];
    let (mut marks, mut list, mut out) = (vec![0; count], vec![0; 3 * count], [0; 1]);
    assert_eq!(calls::order(file, map, number, 0, &mut marks, &mut list, &mut out), 0, "order");
    let nodes = out[0];
    let name = ["order, render", "order, clip"][number as usize];
    let ours = || calls::order(file, map, number, 0, &mut marks, &mut list, &mut out) as u64;
    table.line(name, (1, nodes), ours, None);
    list.truncate(3 * nodes as usize);
    list
}

/// One side over a part of the inputs: the sum of its answers.
type Part<'a, T> = &'a mut dyn FnMut(&[T]) -> u64;

/// Three sides over the same inputs, one after the other, each part of them timed by itself: the least
/// times of the parts count, so that what else the machine does disturbs few of them. Two lines: the
/// first side beside the second and beside the third.
fn three_sides<T>(
    table: &mut Table,
    names: [&str; 2],
    inputs: &[T],
    visits: u64,
    sides: [Part<T>; 3],
) {
    let mut total = [0.0; 3];
    let mut sums = [0; 3];
    for (which, side) in sides.into_iter().enumerate() {
        sums[which] = side(inputs);
        let mut least = vec![f64::MAX; inputs.len().div_ceil(PART)];
        for _ in 0..table.slices {
            for (least, part) in least.iter_mut().zip(inputs.chunks(PART)) {
                *least = least.min(timed(&mut || side(part)));
            }
        }
        total[which] = least.iter().sum();
    }
    if sums[0] != sums[1] || sums[0] != sums[2] {
        println!("{:<9} {:<26} the answers differ", table.name, names[0]);
        table.equal = false;
    }
    for other in [1, 2] {
        let parts = (inputs.len(), visits);
        table.row(names[other - 1], parts, [total[0], total[other]], true);
    }
}

/// Contents by nodes in walking order, beside the Rust and beside the same call by the file.
fn order_contents(
    table: &mut Table,
    (file, map, words): Lent,
    (list, hull): (&[i32], &Hull),
    nodes: &str,
    points: &[[f32; 3]],
) {
    let (mut out, mut by_file) = ([0; 2], [0; 2]);
    let mut visits = 0;
    for p in points {
        assert_eq!(calls::order_contents(file, map, list, 0, p, &mut out), 0, "contents");
        calls::contents(file, map, words, p, &mut by_file);
        table.equal &= out == by_file;
        visits += out[1];
    }
    let mut ours = |points: &[[f32; 3]]| {
        let mut sum = 0;
        for p in points {
            let point = black_box(*p);
            calls::order_contents(file, map, list, 0, &point, &mut out);
            sum += out[0];
        }
        sum
    };
    let mut rust = |points: &[[f32; 3]]| rust_walked(hull, points);
    let mut other = |points: &[[f32; 3]]| walked((file, map, words), points);
    let name = format!("order contents, {nodes}");
    let names = [&name, "  beside the file"];
    three_sides(table, names, points, visits, [&mut ours, &mut rust, &mut other]);
}

/// The same of traces.
fn order_traces(
    table: &mut Table,
    (file, map, words): Lent,
    (list, hull): (&[i32], &Hull),
    name: &str,
    segments: &[[f32; 6]],
) {
    let (mut out, mut by_file) = ([0; TRACE_WORDS], [0; TRACE_WORDS]);
    let mut visits = 0;
    for s in segments {
        assert_eq!(calls::order_trace(file, map, list, 0, s, &mut out), 0, "trace");
        calls::trace(file, map, words, s, &mut by_file);
        table.equal &= out == by_file;
        visits += out[0];
    }
    let mut ours = |segments: &[[f32; 6]]| {
        let mut sum = 0;
        for s in segments {
            let segment = black_box(*s);
            calls::order_trace(file, map, list, 0, &segment, &mut out);
            sum += out[2];
        }
        sum
    };
    let mut rust = |segments: &[[f32; 6]]| rust_traced(hull, segments);
    let mut other = |segments: &[[f32; 6]]| traced((file, map, words), segments);
    let name = format!("order trace, {name}");
    let names = [&name, "  beside the file"];
    three_sides(table, names, segments, visits, [&mut ours, &mut rust, &mut other]);
}

fn find_leaf(
    table: &mut Table,
    (file, map): (&[u8], &[u32]),
    rust: &richter::Map,
    kind: &str,
    points: &[[f32; 3]],
) {
    let mut out = [0; 2];
    let mut visits = 0;
    for p in points {
        assert_eq!(calls::find_leaf(file, map, 0, p, &mut out), 0, "find_leaf");
        visits += out[1];
    }
    let ours = || {
        let mut sum = 0;
        for p in points {
            let point = black_box(*p);
            calls::find_leaf(file, map, 0, &point, &mut out);
            sum += out[0];
        }
        sum
    };
    let mut other = || points.iter().map(|p| rust.bare_find_leaf(black_box(*p)) as u64).sum();
    table.line(&format!("find_leaf{kind}"), (points.len(), visits), ours, Some(&mut other));
}

fn lists(table: &mut Table, seed: &mut Seed, (file, map): (&[u8], &[u32]), rust: &richter::Map) {
    let leaves = rust.leaves().len();
    let count = leaves as u64 - 1;
    let asked: Vec<u64> = (0..LISTS).map(|_| 1 + seed.below(count)).collect();
    let mut list = vec![0u32; leaves + 8];
    let mut out = [0; 1];
    let mut entries = 0;
    for leaf in &asked {
        assert_eq!(calls::pvs(file, map, *leaf, count, &mut list, &mut out), 0, "pvs");
        entries += out[0];
    }
    // what its entries at or above the count add to the Rust's sum
    let sum_of = |list: &[usize]| list.len() + list.last().expect("a leaf");
    let past = |leaf: &u64| {
        let list = rust.bare_pvs(*leaf as usize, count as usize);
        let kept = list.partition_point(|n| (*n as u64) < count);
        (sum_of(&list) - sum_of(&list[..kept])) as u64
    };
    let past: u64 = asked.iter().map(past).sum();
    let ours = || {
        let mut sum = past;
        for leaf in &asked {
            calls::pvs(file, map, black_box(*leaf), count, &mut list, &mut out);
            sum += out[0] + list[out[0] as usize - 1] as u64;
        }
        sum
    };
    let mut other = || {
        let mut sum = 0;
        for leaf in &asked {
            let list = rust.bare_pvs(black_box(*leaf) as usize, count as usize);
            sum += sum_of(&list) as u64;
        }
        sum
    };
    table.line("visibility", (asked.len(), entries), ours, Some(&mut other));
}

/// The pooled list of 16 players beside 16 lists and a merge by the caller: one list after the other,
/// sorted, or a byte for each leaf, marked.
fn team(table: &mut Table, seed: &mut Seed, (file, map): (&[u8], &[u32]), count: u64) {
    let teams: Vec<[u64; 16]> =
        (0..TEAMS).map(|_| [0; 16].map(|_| 1 + seed.below(count))).collect();
    let mut list = vec![0u32; 16 * count as usize];
    let (_, entries) = pooled((file, map), &teams, count, &mut list);
    let mut ours = || pooled((file, map), &teams, count, &mut list).0;
    let mut lists = vec![0u32; 16 * count as usize];
    let mut sorted = || {
        let mut sum = 0;
        for leaves in &teams {
            one_by_one((file, map), leaves, count, &mut lists);
            lists.sort_unstable();
            lists.dedup();
            sum += placed(&lists);
        }
        sum
    };
    table.line("team, sorted", (TEAMS, entries), &mut ours, Some(&mut sorted));
    let (mut marks, mut pool) = (vec![0; count as usize], Vec::new());
    let mut marked = || {
        let mut sum = 0;
        for leaves in &teams {
            one_by_one((file, map), leaves, count, &mut lists);
            mark(&lists, &mut marks, &mut pool);
            sum += placed(&pool);
        }
        sum
    };
    table.line("team, marked", (TEAMS, entries), &mut ours, Some(&mut marked));
}

/// The pooled lists of teams: their sum, and how many entries they have.
fn pooled(
    (file, map): (&[u8], &[u32]),
    teams: &[[u64; 16]],
    count: u64,
    list: &mut [u32],
) -> (u64, u64) {
    let (mut sum, mut entries, mut out) = (0, 0, [0; 1]);
    for leaves in teams {
        let refusal = calls::pvs_team(file, map, black_box(leaves), count, list, &mut out);
        assert_eq!(refusal, 0, "pvs_team");
        sum += placed(&list[..out[0] as usize]);
        entries += out[0];
    }
    (sum, entries)
}

/// The sum of a list in which every entry counts with its place.
fn placed(list: &[u32]) -> u64 {
    let places = list.iter().enumerate();
    places.map(|(place, leaf)| (1 + place as u64) * *leaf as u64).sum()
}

/// The lists of 16 players, one after the other.
fn one_by_one((file, map): (&[u8], &[u32]), leaves: &[u64; 16], count: u64, lists: &mut Vec<u32>) {
    let mut told = [0; 1];
    lists.resize(16 * count as usize, 0);
    let mut filled = 0;
    for leaf in leaves {
        let room = &mut lists[filled..];
        assert_eq!(calls::pvs(file, map, black_box(*leaf), count, room, &mut told), 0);
        filled += told[0] as usize;
    }
    lists.truncate(filled);
}

/// The leaves of lists in order and each once, by a byte for each leaf.
fn mark(lists: &[u32], marks: &mut [u8], pool: &mut Vec<u32>) {
    marks.fill(0);
    for leaf in lists {
        marks[*leaf as usize] = 1;
    }
    pool.clear();
    pool.extend((0..marks.len() as u32).filter(|leaf| marks[*leaf as usize] == 1));
}

/// Ours alone: the Rust has no such check.
fn tree_check(table: &mut Table, (file, map): (&[u8], &[u32]), number: u32, nodes: &str) {
    let section = if number == 0 { 5 } else { 9 };
    let count = map[2 * section + 1] as usize / maps::record::SIZES[section];
    let mut marks = vec![0; count];
    let mut out = [0; 1];
    let ours = || calls::tree_check(file, map, number, 0, &mut marks, &mut out) as u64 + out[0];
    let slices = table.slices;
    table.slices = SINGLE * slices;
    table.line(&format!("tree check, {nodes}"), (1, count as u64), ours, None);
    table.slices = slices;
}

/// Acceptance, one call a slice; a part is a record of a face, leaf, model or node.
fn accept(table: &mut Table, (file, map): (&[u8], &[u32])) {
    let count = |section: usize| map[2 * section + 1] as u64 / maps::record::SIZES[section] as u64;
    let (render, clip) = (count(5), count(9));
    let records = count(7) + count(10) + count(14) + render + clip;
    let mut marks = vec![0; render.max(clip) as usize];
    assert_eq!(calls::accept(file, map, &mut marks), 0, "acceptance");
    let ours = || calls::accept(file, map, &mut marks) as u64;
    table.line("acceptance", (1, records), ours, None);
}

/// Many points at once, spread over a box (the world's where none is given) and in rooms of a sixteenth of
/// its sides, a room for each 1,024; in a hull of each kind of nodes.
fn many_points(
    (name, slices): (&str, u64),
    seed: &mut Seed,
    file: &[u8],
    within: Option<[[f32; 3]; 2]>,
    of: impl Fn(&richter::Map, usize) -> Hull,
) -> bool {
    let mut map = [0u32; 31];
    let (0, Ok(rust)) = (calls::load(file, &mut map), richter::load(file)) else { return false };
    let world = &rust.models()[0];
    let [min, max] = within.unwrap_or([world.min, world.max]);
    let place = |seed: &mut Seed| {
        [0, 1, 2].map(|n| min[n] + (floats::half(seed) + 0.5) * (max[n] - min[n]))
    };
    let count = INPUTS / AT_ONCE[0] * AT_ONCE[0];
    let spread: Vec<[f32; 3]> = (0..count).map(|_| place(seed)).collect();
    let mut near = spread.clone();
    for room in near.chunks_mut(AT_ONCE[0]) {
        let corner = room[0].map(|x| x * (1.0 - ROOM));
        for p in room {
            *p = [0, 1, 2].map(|at| corner[at] + ROOM * p[at]);
        }
    }
    let mut equal = true;
    for (number, nodes) in [(1, "clip"), (0, "render")] {
        let hull = of(&rust, number);
        let words = words::hull(number as u64, &hull);
        for (kind, points) in [("spread", &spread), ("near", &near)] {
            for n in AT_ONCE {
                let what = (name, format!("{nodes}, {kind}"));
                equal &= at_once(what, (slices, n), (file, &map, &words), &hull, points);
            }
        }
    }
    equal
}

/// Each side by turns on every 1,024 points, all of them in a slice; of each 1,024 the least time of all
/// slices counts: their sum. All points lie between two times that the same ones are asked, so that their
/// sides are not remembered. Another side comes first from slice to slice, since the first one reads from
/// memory what the others then find in the cache.
fn by_turns(slices: u64, points: &[[f32; 3]], mut sides: [Part<[f32; 3]>; 3]) -> [f64; 3] {
    let mut least = vec![[f64::MAX; 3]; points.len().div_ceil(AT_ONCE[0])];
    for slice in 0..slices as usize {
        for (least, some) in least.iter_mut().zip(points.chunks(AT_ONCE[0])) {
            for turn in 0..3 {
                let side = (slice + turn) % 3;
                least[side] = least[side].min(timed(&mut || sides[side](some)));
            }
        }
    }
    [0, 1, 2].map(|side| least.iter().map(|times| times[side]).sum())
}

/// Many points, `n` of them a call, beside a call for each point and the Rust.
fn at_once(
    (name, kind): (&str, String),
    (slices, n): (u64, usize),
    (file, map, words): Lent,
    hull: &Hull,
    points: &[[f32; 3]],
) -> bool {
    let (mut list, mut reads) = (vec![0u8; n], [0; 1]);
    let mut all_reads = 0;
    let mut many = |points: &[[f32; 3]]| {
        let mut sum = 0;
        for some in points.chunks(n) {
            let floats = some.as_flattened();
            calls::contents_points(file, map, words, floats, &mut list, &mut reads);
            all_reads += reads[0];
            sum += list.iter().map(|code| *code as u64).sum::<u64>();
        }
        sum
    };
    let mut alone = |points: &[[f32; 3]]| walked((file, map, words), points);
    let mut rust = |points: &[[f32; 3]]| rust_walked(hull, points);
    let one = many(points);
    if one != alone(points) || one != rust(points) {
        println!("{name:<10} {kind:<14} {n:>6} the answers differ");
        return false;
    }
    let sums = by_turns(slices, points, [&mut many, &mut alone, &mut rust]);
    let reads = all_reads as f64 / (points.len() as u64 * (slices + 1)) as f64;
    let [many, alone, rust] = sums.map(|time| time / points.len() as f64);
    println!(
        "{name:<10} {kind:<14} {n:>6} {reads:>7.2} {many:>8.1} {alone:>8.1} {rust:>8.1} {:>8.2} {:>8.2}",
        many / alone,
        many / rust
    );
    true
}

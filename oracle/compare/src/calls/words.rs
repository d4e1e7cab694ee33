//! What the published Rust answers, as the words of the C interface.

use richter::map::{Map, RenderChild};
use richter::{Answer, Child, Hull, Plane, Refusal, Trace};

use crate::paper::{self, walk::UNKNOWN_SIZE};
use maps::floats::bits;

/// Words, or the number of a refusal.
pub type Words = Result<Vec<u64>, u32>;

fn floats(out: &mut Vec<u64>, from: &[f32]) {
    out.extend(from.iter().map(|x| bits(*x) as u64));
}

fn signed(x: i16) -> u64 {
    x as i64 as u64
}

pub fn plane(out: &mut Vec<u64>, p: &Plane) {
    out.push(p.kind as u64);
    floats(out, &p.normal);
    floats(out, &[p.dist]);
}

fn render_nodes(map: &Map) -> Vec<Vec<u64>> {
    let child = |c: RenderChild| match c {
        RenderChild::Node(n) => [0, n as u64],
        RenderChild::Leaf(l) => [1, l as u64],
    };
    let words = |n: &richter::map::RenderNode| {
        let mut out = vec![n.plane as u64];
        out.extend(n.children.iter().flat_map(|c| child(*c)));
        out.extend(n.min.map(signed));
        out.extend(n.max.map(signed));
        out.extend([n.face_id as u64, n.face_count as u64]);
        out
    };
    map.render_nodes().iter().map(words).collect()
}

fn texinfos(map: &Map) -> Vec<Vec<u64>> {
    let words = |t: &richter::map::TexInfo| {
        let mut out = Vec::new();
        floats(&mut out, &t.s_vector);
        floats(&mut out, &[t.s_offset]);
        floats(&mut out, &t.t_vector);
        floats(&mut out, &[t.t_offset]);
        out.extend([t.texture as u64, t.special as u64]);
        out
    };
    map.texinfos().iter().map(words).collect()
}

fn faces(map: &Map) -> Vec<Vec<u64>> {
    let words = |f: &richter::map::Face| {
        let mut out = vec![f.plane as u64, f.side as u64, f.edge_id as u64, f.edge_count as u64];
        out.push(f.texinfo as u64);
        out.extend(f.light_styles.map(u64::from));
        out.push(f.lightmap.map_or(u64::MAX, |at| at as u64));
        out.extend(f.texture_mins.map(signed));
        out.extend(f.extents.map(signed));
        out
    };
    map.faces().iter().map(words).collect()
}

fn clip_nodes(map: &Map) -> Vec<Vec<u64>> {
    let child = |c: Child| match c {
        Child::Node(n) => [0, n as u64],
        Child::Contents(code) => [1, code as u64],
    };
    let words = |n: &richter::Node| {
        let mut out = vec![n.plane as u64];
        out.extend(n.children.iter().flat_map(|c| child(*c)));
        out
    };
    map.clip_nodes().iter().map(words).collect()
}

fn leaves(map: &Map) -> Vec<Vec<u64>> {
    let words = |l: &richter::map::Leaf| {
        let mut out = vec![l.contents as u64, l.vis_offset.map_or(u64::MAX, |at| at as u64)];
        out.extend(l.min.map(signed));
        out.extend(l.max.map(signed));
        out.extend([l.facelist_id as u64, l.facelist_count as u64]);
        out.extend(l.sounds.map(u64::from));
        out
    };
    map.leaves().iter().map(words).collect()
}

fn models(map: &Map) -> Vec<Vec<u64>> {
    let words = |m: &richter::map::Model| {
        let mut out = Vec::new();
        floats(&mut out, &m.min);
        floats(&mut out, &m.max);
        floats(&mut out, &m.origin);
        out.extend(m.roots.map(|n| n as u64));
        out.extend(m.node_counts.map(|n| n as u64));
        out.extend([m.leaf_id, m.leaf_count, m.face_id, m.face_count].map(|n| n as u64));
        // the published code takes the leaves from leaf_id to leaf_id + leaf_count + 1, exclusive
        out.push((m.leaf_id + m.leaf_count) as u64);
        out
    };
    map.models().iter().map(words).collect()
}

/// The same with the textures' new numbers, which the program on paper works out of the names; none
/// where it cannot.
fn renumbered(map: &Map, page: &paper::Map) -> Option<Vec<Vec<u64>>> {
    let mut rows = texinfos(map);
    if rows.is_empty() {
        return Some(rows);
    }
    let numbers = paper::textures::numbers(&page.sound_names().ok()?).0;
    for row in &mut rows {
        row[8] = *numbers.get(row[8] as usize)?;
    }
    Some(rows)
}

/// Every record of every section that has records; texture infos with new numbers.
pub fn tables(map: &Map, page: &paper::Map) -> Vec<(u32, Vec<Vec<u64>>)> {
    let planes = map.planes().into_iter().map(|p| {
        let mut out = Vec::new();
        plane(&mut out, &p);
        out
    });
    let vertices = map.vertices().into_iter().map(|v| v.map(|x| bits(x) as u64).to_vec());
    let mut found = vec![
        (1, planes.collect()),
        (3, vertices.collect()),
        (5, render_nodes(map)),
        (7, faces(map)),
        (9, clip_nodes(map)),
        (10, leaves(map)),
        (11, map.facelist().iter().map(|n| vec![*n as u64]).collect()),
        (12, map.edges().iter().map(|e| e.map(u64::from).to_vec()).collect()),
        (13, map.edgelist().iter().map(|e| vec![e.direction as u64, e.index as u64]).collect()),
        (14, models(map)),
    ];
    if let Some(rows) = renumbered(map, page) {
        found.insert(3, (6, rows));
    }
    found
}

/// The words of a hull over a table: those that the Rust has, and zeros for the size of its tree.
pub fn hull(table: u64, hull: &Hull) -> Vec<u64> {
    let mut out = old_hull(table, hull);
    out.extend(UNKNOWN_SIZE);
    out
}

/// The nine words that the Rust has.
pub fn old_hull(table: u64, hull: &Hull) -> Vec<u64> {
    let mut out = vec![table, hull.root() as u64, hull.node_count() as u64];
    floats(&mut out, &hull.mins());
    floats(&mut out, &hull.maxs());
    out
}

/// A visibility list, less its entries at or above the leaf count (note 3).
pub fn pvs(map: &Map, leaf: u64, leaf_count: u64) -> Result<Vec<u32>, u32> {
    let below = |list: Vec<usize>| {
        list.into_iter().filter(|n| (*n as u64) < leaf_count).map(|n| n as u32).collect()
    };
    let found = map.get_pvs(leaf as usize, leaf_count as usize);
    found.map(below).map_err(|refusal| number(refusal).expect("a number"))
}

/// The number of a refusal; none where the comparison gave up.
pub fn number(refusal: Refusal) -> Option<u32> {
    match refusal {
        Refusal::Number(number) => Some(number),
        Refusal::GaveUp => None,
    }
}

/// A walk's answer with its visits, and the nodes entered; none where the comparison gave up.
pub fn walk<T>(
    answer: Answer<T>,
    words: impl FnOnce(T, u64) -> Vec<u64>,
) -> Option<(Words, Vec<u32>)> {
    let visits = answer.nodes.len() as u64;
    let nodes = answer.nodes.iter().map(|n| *n as u32).collect();
    match answer.value {
        Ok(value) => Some((Ok(words(value, visits)), nodes)),
        Err(refusal) => number(refusal).map(|number| (Err(number), nodes)),
    }
}

/// The seventeen words of a trace.
pub fn trace(t: Trace, visits: u64) -> Vec<u64> {
    let mut out = vec![visits, t.contents as u64, t.start_solid as u64];
    floats(&mut out, &t.start);
    floats(&mut out, &[t.start_ratio]);
    floats(&mut out, &t.end);
    match t.boundary {
        None => out.extend([0; 7]),
        Some((ratio, p)) => {
            out.push(1);
            floats(&mut out, &[ratio]);
            plane(&mut out, &p);
        }
    }
    out
}

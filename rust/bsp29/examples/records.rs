//! Prints the entity text and every record of a map, field by field. The entity text is a stranger's: of
//! its control characters only line breaks and tabs are printed as they are.
//!
//!     records MAP
//!
//! Where a call is refused it says why and ends with status 1. `examples/run` builds and runs it.

use bsp29::*;
use std::fmt::Display;
use std::process::ExitCode;

/// Numbers, each after a space.
fn list<T: Display>(numbers: &[T]) -> String {
    numbers.iter().map(|number| format!(" {number}")).collect()
}

/// The same digits as the program in C prints.
fn floats(floats: &[f32]) -> String {
    let one = |x: &f32| if x.is_nan() { " nan".to_string() } else { format!(" {x:.6}") };
    floats.iter().map(one).collect()
}

fn offset(offset: Option<usize>) -> String {
    offset.map_or("none".to_string(), |at| at.to_string())
}

fn render_child(child: RenderChild) -> String {
    match child {
        RenderChild::Node(n) => format!("Node {n}"),
        RenderChild::Leaf(n) => format!("Leaf {n}"),
    }
}

fn clip_child(child: ClipChild) -> String {
    match child {
        ClipChild::Node(n) => format!("Node {n}"),
        ClipChild::Contents(contents) => format!("{contents:?}"),
    }
}

/// A text of a stranger: a terminal would obey the control characters in it, so each is shown as its
/// number.
fn plain(text: &str) -> String {
    let mut shown = String::new();
    for c in text.chars() {
        if c.is_control() && c != '\n' && c != '\t' {
            shown += &format!("\\x{:02x}", u32::from(c));
        } else {
            shown.push(c);
        }
    }
    shown
}

/// Prints each record of a kind, as `show` shows it.
fn print<R: Record>(
    name: &str,
    records: Records<'_, R>,
    show: impl Fn(R) -> String,
) -> Result<(), Refusal> {
    for (index, record) in records.iter().enumerate() {
        println!("{name} {index}: {}", show(record?));
    }
    Ok(())
}

fn run(file: &[u8]) -> Result<(), Refusal> {
    let map = Map::load(file)?;
    print!("{}", plain(map.entity_text()?));
    println!("textures: {}", map.texture_count());
    nodes(&map)?;
    Ok(())
}

fn nodes(map: &Map) -> Result<(), Refusal> {
    print("plane", map.planes(), |r| {
        format!("kind {} normal{} dist{}", r.kind as u8, floats(&r.normal), floats(&[r.dist]))
    })?;
    print("vertex", map.vertices(), |r| format!("point{}", floats(&r.point)))?;
    print("render node", map.render_nodes(), |r| {
        format!(
            "plane {} front {} back {} min{} max{} face {} face_count {}",
            r.plane,
            render_child(r.front),
            render_child(r.back),
            list(&r.min),
            list(&r.max),
            r.face,
            r.face_count
        )
    })?;
    surfaces(map)?;
    print("clip node", map.clip_nodes(), |r| {
        format!("plane {} front {} back {}", r.plane, clip_child(r.front), clip_child(r.back))
    })?;
    leaves(map)
}

fn surfaces(map: &Map) -> Result<(), Refusal> {
    print("texture info", map.texture_infos(), |r| {
        format!(
            "s{} s_offset{} t{} t_offset{} texture {} special {}",
            floats(&r.s),
            floats(&[r.s_offset]),
            floats(&r.t),
            floats(&[r.t_offset]),
            r.texture,
            u8::from(r.special)
        )
    })?;
    print("face", map.faces(), |r| {
        format!(
            "plane {} side {} edge {} edge_count {} texture_info {} light_styles{} lightmap {} texture_mins{} extents{}",
            r.plane,
            r.side as u8,
            r.edge,
            r.edge_count,
            r.texture_info,
            list(&r.light_styles),
            offset(r.lightmap),
            list(&r.texture_mins),
            list(&r.extents)
        )
    })
}

fn leaves(map: &Map) -> Result<(), Refusal> {
    print("leaf", map.leaves(), |r| {
        let sounds = [r.sounds.water, r.sounds.sky, r.sounds.slime, r.sounds.lava];
        format!(
            "contents {:?} visibility {} min{} max{} face_list {} face_list_count {} sounds{}",
            r.contents,
            offset(r.visibility),
            list(&r.min),
            list(&r.max),
            r.face_list,
            r.face_list_count,
            list(&sounds)
        )
    })?;
    print("face list entry", map.face_list(), |r| format!("face {}", r.face))?;
    print("edge", map.edges(), |r| format!("first {} second {}", r.vertices[0], r.vertices[1]))?;
    print("edge list entry", map.edge_list(), |r| {
        format!("direction {} edge {}", r.direction as u8, r.edge)
    })?;
    models(map)
}

fn models(map: &Map) -> Result<(), Refusal> {
    print("model", map.models(), |r| {
        format!(
            "min{} max{} origin{} hull_roots{} hull_node_counts{} leaf {} leaf_count {} face {} face_count {} last_leaf {}",
            floats(&r.min),
            floats(&r.max),
            floats(&r.origin),
            list(&r.hull_roots),
            list(&r.hull_node_counts),
            r.leaf,
            r.leaf_count,
            r.face,
            r.face_count,
            r.last_leaf
        )
    })
}

fn main() -> ExitCode {
    let words: Vec<String> = std::env::args().skip(1).collect();
    if words.len() != 1 {
        eprintln!("usage: records MAP");
        return ExitCode::from(2);
    }
    let file = match std::fs::read(&words[0]) {
        Ok(file) => file,
        Err(error) => {
            eprintln!("{}: {error}", words[0]);
            return ExitCode::FAILURE;
        }
    };
    match run(&file) {
        Ok(()) => ExitCode::SUCCESS,
        Err(refusal) => {
            eprintln!("refused {}: {refusal}", refusal.number());
            ExitCode::FAILURE
        }
    }
}

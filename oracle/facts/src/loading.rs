//! Loading: what each test refuses, and which test comes first.

use maps::record::{self, Tables};
use maps::Layout;

use crate::trials::{leaf, loads, plain, Trials};

pub fn loading(t: &mut Trials) {
    sections(t);
    limits(t);
    texts(t);
    empty_texts(t);
    textures(t);
    last_leaf(t);
    last_bytes(t);
    nodes(t);
    codes(t);
    least(t);
}

/// The smallest map with another number at a place.
fn with(at: usize, value: i32) -> Vec<u8> {
    let mut file = plain(&Tables::smallest());
    file[at..at + 4].copy_from_slice(&value.to_le_bytes());
    file
}

/// Where the directory has a section's offset.
fn offset(section: usize) -> usize {
    4 + 8 * section
}

/// The smallest map with a section of this size at the file's end.
fn past(section: usize, size: i32) -> Vec<u8> {
    let end = plain(&Tables::smallest()).len() as i32;
    let mut file = with(offset(section), end);
    file[offset(section) + 4..offset(section) + 8].copy_from_slice(&size.to_le_bytes());
    file
}

fn sections(t: &mut Trials) {
    t.check("", "a negative offset", "refused 3", loads(&with(offset(4), -1)));
    t.check("", "a negative size", "refused 4", loads(&with(offset(4) + 4, -1)));
    t.check("", "a size that is no multiple", "refused 5", loads(&with(offset(1) + 4, 21)));
}

/// The limits of the sections.
const LIMITS: [(usize, i32, &str); 9] = [
    (record::PLANES, 8192, "planes"),
    (record::VERTICES, 65_535, "vertices"),
    (record::VISIBILITY, 1_048_576, "visibility bytes"),
    (record::RENDER_NODES, 32_767, "render nodes"),
    (record::CLIP_NODES, 32_767, "clip nodes"),
    (record::LEAVES, 32_767, "leaves"),
    (record::EDGES, 256_000, "edges"),
    (record::EDGELIST, 512_000, "edge-list entries"),
    (record::MODELS, 256, "models"),
];

fn limits(t: &mut Trials) {
    for (section, limit, name) in LIMITS {
        let size = record::SIZES[section] as i32;
        // at its limit the section is read: its bytes end early, or its end position differs
        let within = match section {
            record::VISIBILITY => "refused 7",
            _ => "refused 1",
        };
        t.check("", &format!("{limit} {name}"), within, loads(&past(section, limit * size)));
        let above = past(section, (limit + 1) * size);
        t.check("", &format!("{} {name}", limit + 1), "refused 6", loads(&above));
    }
    for (section, size, name) in [
        (record::TEXINFOS, 40, "texture infos"),
        (record::FACES, 20, "faces"),
        (record::FACELIST, 2, "face-list entries"),
    ] {
        let most = i32::MAX / size;
        t.check("", &format!("{most} {name}"), "refused 1", loads(&past(section, most * size)));
    }
    let most = past(record::LIGHTMAPS, i32::MAX);
    t.check("", "2147483647 lightmap bytes", "refused 7", loads(&most));
}

/// The smallest map with this entity text.
fn text(bytes: Vec<u8>) -> Vec<u8> {
    plain(&Tables { entities: bytes, ..Tables::smallest() })
}

fn texts(t: &mut Trials) {
    let mut long = vec![b'a'; 65_536];
    long[65_535] = 0;
    t.check("", "entities of 65536 bytes with their zero", "loads", loads(&text(long.clone())));
    long[65_535] = b'a';
    long.push(0);
    t.check("", "entities of 65537 bytes with their zero", "refused 8", loads(&text(long.clone())));
    long[0] = 0xff;
    t.check("", "length before UTF-8", "refused 8", loads(&text(long)));
    t.check("", "entities not UTF-8", "refused 9", loads(&text(vec![0xff, 0])));
    let mut both = text(vec![0xff, 0]);
    both[8] = 9;
    t.check("", "UTF-8 before end position", "refused 9", loads(&both));
    t.check("", "a zero byte before the end", "refused 7", loads(&text(vec![b'a', 0, b'b', 0])));
}

fn empty_texts(t: &mut Trials) {
    let mut last = Layout::plain();
    last.order.swap(record::ENTITIES, record::MODELS);
    let open = Tables { entities: b"abc".to_vec(), ..Tables::smallest() };
    t.check("", "entities that run to the file's end", "loads", loads(&open.file(&last)));
    let empty = Tables { entities: vec![], ..Tables::smallest() };
    let mut at_end = plain(&empty);
    t.check("", "empty entities at the file's end", "loads", loads(&at_end));
    let end = at_end.len() as u32;
    at_end[4..8].copy_from_slice(&(end - 1).to_le_bytes());
    t.check("", "empty entities before the file's end", "refused 7", loads(&at_end));
    at_end[4..8].copy_from_slice(&(end + 9).to_le_bytes());
    t.check("", "empty entities past the file's end", "loads", loads(&at_end));
    t.check(
        "",
        "an empty section at 2147483647",
        "loads",
        loads(&with(offset(record::PLANES), i32::MAX)),
    );
}

fn textures(t: &mut Trials) {
    let textures = |bytes: Vec<u8>| plain(&Tables { textures: bytes, ..Tables::smallest() });
    t.check("", "texture count -1", "refused 10", loads(&textures((-1i32).to_le_bytes().to_vec())));
    let above = 2_097_153i32.to_le_bytes().to_vec();
    t.check("", "texture count 2097153", "refused 10", loads(&textures(above)));
    t.check("", "no textures and a section of 5 bytes", "refused 7", loads(&textures(vec![0; 5])));
}

/// The last leaf of a file that ends early.
fn last_leaf(t: &mut Trials) {
    let sounds = Tables { leaves: vec![leaf(-1)], ..Tables::smallest() };
    let mut layout = Layout::plain();
    layout.order.swap(record::LEAVES, record::MODELS);
    // models, then leaves, then empty sections
    let file = sounds.file(&layout);
    for (cut, expected) in
        [(0, "loads"), (1, "refused 7"), (3, "refused 7"), (4, "refused 7"), (5, "refused 1")]
    {
        t.check(
            "",
            &format!("the last leaf short of {cut} bytes"),
            expected,
            loads(&file[..file.len() - cut]),
        );
    }
}

/// Sections of bytes at the end of a file that ends early.
fn last_bytes(t: &mut Trials) {
    for (section, name) in [(record::VISIBILITY, "visibility"), (record::LIGHTMAPS, "lightmaps")] {
        let bytes = vec![1; 8];
        let tables = match section {
            record::VISIBILITY => Tables { visibility: bytes, ..Tables::smallest() },
            _ => Tables { lightmaps: bytes, ..Tables::smallest() },
        };
        let mut layout = Layout::plain();
        layout.order.swap(section, record::MODELS);
        let file = tables.file(&layout);
        t.check("", &format!("{name} at the file's end"), "loads", loads(&file));
        t.check(
            "",
            &format!("{name} short of a byte"),
            "refused 7",
            loads(&file[..file.len() - 1]),
        );
    }
}

fn nodes(t: &mut Trials) {
    let node = record::RenderNode {
        plane: 70_000,
        children: [-1, 500],
        min: [0; 3],
        max: [0; 3],
        face: 0,
        faces: 65_535,
    };
    let with_node =
        |node| Tables { render_nodes: vec![node], leaves: vec![leaf(-1)], ..Tables::smallest() };
    t.check("", "a node's plane and node child outside", "loads", loads(&plain(&with_node(node))));
    t.check(
        "",
        "a node's leaf outside",
        "refused 11",
        loads(&plain(&with_node(record::RenderNode { children: [-2, 0], ..node }))),
    );
    t.check(
        "",
        "a node's plane negative",
        "refused 10",
        loads(&plain(&with_node(record::RenderNode { plane: -1, ..node }))),
    );
    t.check(
        "",
        "a node's face negative",
        "refused 10",
        loads(&plain(&with_node(record::RenderNode { face: -1, ..node }))),
    );
}

/// Contents of clip nodes and leaves.
fn codes(t: &mut Trials) {
    for code in 0..=16i32 {
        let clip = record::ClipNode { plane: 0, children: [0, -code as i16] };
        let tables = Tables { clip_nodes: vec![clip], ..Tables::smallest() };
        let known = code == 0 || maps::make::CONTENTS.contains(&code);
        t.check(
            "",
            &format!("clip node child -{code}"),
            if known { "loads" } else { "refused 10" },
            loads(&plain(&tables)),
        );
        let tables = Tables {
            leaves: vec![record::Leaf { contents: -code, ..leaf(-1) }],
            ..Tables::smallest()
        };
        let known = maps::make::CONTENTS.contains(&code);
        t.check(
            "",
            &format!("leaf contents -{code}"),
            if known { "loads" } else { "refused 10" },
            loads(&plain(&tables)),
        );
    }
}

/// The least numbers of fields, and negative ones.
fn least(t: &mut Trials) {
    let clip = record::ClipNode { plane: 0, children: [i16::MIN, 0] };
    let tables = Tables { clip_nodes: vec![clip], ..Tables::smallest() };
    t.check("", "clip node child -32768", "refused 10", loads(&plain(&tables)));
    let tables = Tables {
        leaves: vec![record::Leaf { contents: i32::MIN, ..leaf(-1) }],
        ..Tables::smallest()
    };
    t.check("", "leaf contents -2147483648", "refused 10", loads(&plain(&tables)));
    let tables = Tables { leaves: vec![leaf(-2)], ..Tables::smallest() };
    t.check("", "a leaf's visibility offset -2", "refused 10", loads(&plain(&tables)));
    let mut tables = Tables::smallest();
    tables.models[0].roots = [0, 0, 0, -1];
    t.check("", "a model's fourth root negative", "loads", loads(&plain(&tables)));
    tables.models[0].roots = [0, 0, -1, 0];
    t.check("", "a model's third root negative", "refused 10", loads(&plain(&tables)));
}

//! Texture extents: differences cast, floats that are none, numbers outside their tables.

use maps::record::{self, Tables};
use richter::load;

use crate::trials::{plain, said, Trials};

/// A triangle whose s runs from 0 to 16 times the difference.
fn triangle(difference: u32, flags: i32) -> Tables {
    Tables {
        textures: vec![1, 0, 0, 0, 0xff, 0xff, 0xff, 0xff],
        vertices: vec![[0.0; 3], [16.0 * difference as f32, 0.0, 0.0], [0.0; 3]],
        edges: vec![[0, 0], [1, 1], [2, 2]],
        edgelist: vec![0, 1, 2],
        texinfos: vec![record::TexInfo { s: [1.0, 0.0, 0.0, 0.0], t: [0.0; 4], texture: 0, flags }],
        faces: vec![record::Face {
            plane: 0,
            side: 0,
            edge: 0,
            edges: 3,
            texinfo: 0,
            styles: [0; 4],
            lightmap: -1,
        }],
        ..Tables::smallest()
    }
}

pub fn extent(difference: u32, flags: i32) -> String {
    said(load(&plain(&triangle(difference, flags))), |map| {
        format!("extent {}", map.faces()[0].extents[0])
    })
}

/// What a map's first face has.
fn face(tables: &Tables) -> String {
    said(load(&plain(tables)), |map| {
        let face = map.faces()[0];
        format!("texture mins {:?}, extents {:?}", face.texture_mins, face.extents)
    })
}

pub fn extents(t: &mut Trials) {
    for (difference, expected) in [
        (2047, "refused 12"),
        (4095, "extent -16"),
        (4096, "extent 0"),
        (4221, "extent 2000"),
        (4222, "refused 12"),
        (32_767, "extent -16"),
        (100_000, "extent -16"),
    ] {
        t.check("", &format!("cast difference {difference}"), expected, extent(difference, 0));
    }
    t.check("", "cast difference 126, special", "extent 2016", extent(126, 1));
    let mut tables = triangle(1, 0);
    tables.texinfos[0].s[3] = f32::NAN;
    t.check("", "every s NaN", "texture mins [-16, 0], extents [0, 0]", face(&tables));
    let mut tables = triangle(0, 0);
    tables.texinfos[0].s[3] = -600_000.0;
    t.check("", "least s -600000", "texture mins [0, 0], extents [0, 0]", face(&tables));
    edges(t);
    counts(t);
}

/// Edges and vertices outside their tables.
fn edges(t: &mut Trials) {
    let mut tables = triangle(1, 0);
    tables.edges[1] = [1, 60_000];
    t.check(
        "",
        "the vertex on the other side outside",
        "texture mins [0, 0], extents [16, 0]",
        face(&tables),
    );
    tables.edgelist[1] = -1;
    t.check("", "the vertex on the entry's side outside", "refused 11", face(&tables));
    let mut tables = triangle(1, 0);
    tables.edgelist[0] = 77;
    tables.faces[0].edges = 4;
    t.check("", "the edge-list range before its first edge", "refused 11", face(&tables));
}

/// Planes, texture infos and textures at their counts.
fn counts(t: &mut Trials) {
    let mut tables = triangle(126, 0);
    tables.faces[0].texinfo = 1;
    t.check("", "texture info equal to its count", "refused 11", face(&tables));
    tables.faces[0].texinfo = 2;
    t.check("", "texture info above its count", "refused 10", face(&tables));
    let mut tables = triangle(1, 0);
    tables.faces[0].plane = 1;
    t.check("", "a face's plane above the plane count", "refused 10", face(&tables));
    tables.faces[0].plane = 0;
    t.check(
        "",
        "a face's plane equal to the plane count",
        "texture mins [0, 0], extents [16, 0]",
        face(&tables),
    );
    let mut tables = triangle(1, 0);
    tables.texinfos.push(record::TexInfo { flags: 7, ..tables.texinfos[0] });
    tables.texinfos[0].texture = 1;
    t.check(
        "",
        "record 0's texture equal to its count before record 1's flag",
        "refused 11",
        face(&tables),
    );
    tables.texinfos[0].flags = 2;
    t.check(
        "",
        "a texture info's flag before its equal-to-count test",
        "refused 10",
        face(&tables),
    );
}

//! What bspinfo reads in a compiled map beside the calls: every record of every table, the entity text,
//! the bytes of visibility and light, the textures' names and sizes, the corners of every face.
//!
//! Three things are otherwise by document 01, and expected so: a plane is what `Hyperplane` makes of its
//! fields (slanted normals are normalised anew, lines of their own), a model's box is one unit larger on
//! each side, and textures have new numbers, which `bsp_texture_static` and `bsp_texture_frame` lead back.

use crate::calls::asked::Asked;
use crate::calls::RECORD_WORDS;
use crate::modes::json::Json;
use crate::paper::plane::Plane;
use crate::paper::textures::TEXTURE_WORDS;
use crate::paper::{self, fields::float_word, records::plane_words};
use crate::report::board::{Board, Side};

pub fn all(board: &mut Board, asked: &Asked, told: &Json) {
    let mut page = Page { board, asked };
    page.planes(told.list("planes"));
    page.vertices(told.list("vertexes"));
    page.nodes(told.list("nodes"));
    page.texture_infos(told.list("texinfo"));
    page.faces(told.list("faces"));
    page.clip_nodes(told.list("clipnodes"));
    page.leaves(told.list("leafs"));
    page.lists(told);
    page.models(told.list("models"));
    page.textures(told.list("textures"));
    page.entities(told.text("entdata"));
    for (section, name) in [(paper::VISIBILITY, "visdata"), (paper::LIGHTMAPS, "lightdata")] {
        page.bytes(section, told.text(name).unwrap_or_default());
    }
}

struct Page<'a, 'b> {
    board: &'a mut Board,
    asked: &'a Asked<'b>,
}

/// A float's word, and those of signed numbers as records have them.
fn float(x: f64) -> u64 {
    float_word(x as f32)
}

fn signed(x: f64) -> u64 {
    x as i64 as u64
}

/// A child or contents: two words, as records have them.
fn child(x: f64, end: impl Fn(i64) -> i64) -> [u64; 2] {
    match x as i64 {
        node if node >= 0 => [0, node as u64],
        other => [1, end(other) as u64],
    }
}

impl Page<'_, '_> {
    fn judge(&mut self, line: &str, equal: bool, text: impl FnOnce() -> String) {
        let difference = (!equal).then(text);
        let (name, size) = (self.asked.name, self.asked.file.len());
        self.board.count(line, (0, Side::Paper), difference, || (size, name()));
    }

    /// A record's words, as many as there are asked for; none where it is refused.
    fn record(&self, section: usize, index: usize) -> Option<[u64; RECORD_WORDS]> {
        let Asked { calls, file, map, .. } = *self.asked;
        let mut out = [0; RECORD_WORDS];
        let refusal = (calls.record)(file, map, section as u32, index as u64, &mut out);
        (refusal == 0).then_some(out)
    }

    /// The first words of every record of a section beside what is told of it, and the count.
    fn table(&mut self, line: &str, section: usize, told: Vec<Vec<u64>>) {
        let mut out = [0; 1];
        let refusal = (self.asked.calls.count)(self.asked.map, section as u32, &mut out);
        let equal = refusal == 0 && out[0] == told.len() as u64;
        self.judge("bspinfo, counts", equal, || {
            format!("{line}: {refusal} {out:?}, bspinfo {}", told.len())
        });
        for (index, words) in told.into_iter().enumerate() {
            let ours = self.record(section, index);
            let equal = ours.is_some_and(|ours| ours[..words.len()] == words[..]);
            self.judge(line, equal, || format!("{index}: {ours:x?}, bspinfo {words:x?}"));
        }
    }

    fn planes(&mut self, told: &[Json]) {
        let mut rows = Vec::new();
        for plane in told {
            let normal = plane.numbers("normal");
            let normal = [0, 1, 2].map(|n| normal[n] as f32);
            let (dist, kind) = (plane.numbers("dist")[0] as f32, plane.numbers("type")[0] as i32);
            let made = Plane::of_file(normal, dist, kind);
            let mut words = Vec::new();
            plane_words(&mut words, &made);
            let same = made.normal().map(float_word) == normal.map(float_word);
            // -0 in the normal of an axis plane, which is ignored
            let axis = (0..3).contains(&kind);
            let line = match (axis, same) {
                (true, _) => "bspinfo, axis planes",
                (false, true) => "bspinfo, slanted planes, normals as in the file",
                (false, false) => "bspinfo, slanted planes, normals normalised anew",
            };
            rows.push((line, words));
        }
        let count = rows.len();
        for (index, (line, words)) in rows.into_iter().enumerate() {
            let ours = self.record(paper::PLANES, index);
            let equal = ours.is_some_and(|ours| ours[..words.len()] == words[..]);
            self.judge(line, equal, || format!("{index}: {ours:x?}, bspinfo {words:x?}"));
        }
        let ours = self.asked.paper().count(paper::PLANES);
        self.judge("bspinfo, counts", ours == count as u64, || format!("{ours} planes"));
    }

    fn vertices(&mut self, told: &[Json]) {
        let rows = told.iter().map(|vertex| floats(&values(vertex))).collect();
        self.table("bspinfo, vertices", paper::VERTICES, rows);
    }

    fn nodes(&mut self, told: &[Json]) {
        let row = |node: &Json| {
            let mut words = vec![signed(node.numbers("planenum")[0])];
            let children = node.numbers("children");
            words.extend(children.iter().flat_map(|x| child(*x, |leaf| -1 - leaf)));
            words.extend(node.numbers("mins").into_iter().map(signed));
            words.extend(node.numbers("maxs").into_iter().map(signed));
            words.extend([node.numbers("firstface")[0], node.numbers("numfaces")[0]].map(signed));
            words
        };
        self.table("bspinfo, nodes", paper::RENDER_NODES, told.iter().map(row).collect());
    }

    fn clip_nodes(&mut self, told: &[Json]) {
        let row = |node: &Json| {
            let mut words = vec![signed(node.numbers("planenum")[0])];
            words.extend(node.numbers("children").iter().flat_map(|x| child(*x, |code| -code)));
            words
        };
        self.table("bspinfo, clip nodes", paper::CLIP_NODES, told.iter().map(row).collect());
    }

    fn leaves(&mut self, told: &[Json]) {
        let row = |leaf: &Json| {
            let mut words =
                vec![-leaf.numbers("contents")[0] as u64, signed(leaf.numbers("visofs")[0])];
            for name in ["mins", "maxs", "firstmarksurface", "nummarksurfaces", "ambient_level"] {
                words.extend(leaf.numbers(name).into_iter().map(signed));
            }
            words
        };
        self.table("bspinfo, leaves", paper::LEAVES, told.iter().map(row).collect());
    }

    /// The face list, the edges and the edge list.
    fn lists(&mut self, told: &Json) {
        let numbers = |name: &str| told.numbers(name).into_iter();
        let rows = numbers("leaffaces").map(|x| vec![signed(x)]).collect();
        self.table("bspinfo, face list", paper::FACELIST, rows);
        let row = |edge: &Json| values(edge).into_iter().map(signed).collect();
        let rows = told.list("edges").iter().map(row).collect();
        self.table("bspinfo, edges", paper::EDGES, rows);
        let row = |x: f64| vec![(x < 0.0) as u64, signed(x.abs())];
        self.table("bspinfo, edge list", paper::EDGELIST, numbers("surfedges").map(row).collect());
    }

    /// The words up to the light's offset; the extents after them are no field of the file.
    fn faces(&mut self, told: &[Json]) {
        let row = |face: &Json| {
            let mut words = Vec::new();
            for name in ["planenum", "side", "firstedge", "numedges", "texinfo"] {
                words.push(signed(face.numbers(name)[0]));
            }
            words.extend(face.numbers("styles").into_iter().take(4).map(signed));
            words.push(signed(face.numbers("lightofs")[0]));
            words
        };
        self.table("bspinfo, faces", paper::FACES, told.iter().map(row).collect());
        for (index, face) in told.iter().enumerate() {
            let corners: Vec<u64> =
                face.list("vertices").iter().flat_map(|vertex| floats(&values(vertex))).collect();
            let ours = self.corners(index);
            let equal = ours.as_ref() == Some(&corners);
            self.judge("bspinfo, corners of faces", equal, || {
                format!("face {index}: {ours:x?}, bspinfo {corners:x?}")
            });
        }
    }

    /// A face's corners by its records: its part of the edge list, the edges, their first vertices.
    fn corners(&self, face: usize) -> Option<Vec<u64>> {
        let face = self.record(paper::FACES, face)?;
        let mut corners = Vec::new();
        for entry in face[2]..face[2] + face[3] {
            let entry = self.record(paper::EDGELIST, entry as usize)?;
            let edge = self.record(paper::EDGES, entry[1] as usize)?;
            let vertex = edge[entry[0] as usize] as usize;
            corners.extend(&self.record(paper::VERTICES, vertex)?[..3]);
        }
        Some(corners)
    }

    /// The number of the texture is led back to the file's.
    fn texture_infos(&mut self, told: &[Json]) {
        let row = |info: &Json| {
            let vectors = info.list("vecs");
            vectors.iter().flat_map(|vector| floats(&values(vector))).collect::<Vec<u64>>()
        };
        let rows = told.iter().map(row).collect();
        self.table("bspinfo, texture infos", paper::TEXINFOS, rows);
        for (index, info) in told.iter().enumerate() {
            let Some(words) = self.record(paper::TEXINFOS, index) else { continue };
            let texture = signed(info.numbers("miptex")[0]);
            let special = info.numbers("flags")[0] as u64 & 1;
            let led = self.file_numbers(words[8]);
            let equal = led.contains(&texture) && words[9] == special;
            self.judge("bspinfo, textures of texture infos", equal, || {
                format!("{index}: {words:x?} leads to {led:?}, bspinfo {texture}")
            });
        }
    }

    /// The textures of the file that a new number stands for: a static one, or the frames of a group.
    fn file_numbers(&self, number: u64) -> Vec<u64> {
        let Asked { calls, file, map, .. } = *self.asked;
        let mut out = [0; 1];
        if (calls.texture_static)(file, map, number, &mut out) == 0 {
            return out.to_vec();
        }
        let mut found = Vec::new();
        for group in [0, 1] {
            for place in 0.. {
                if (calls.texture_frame)(file, map, number, group, place, &mut out) != 0 {
                    break;
                }
                found.push(out[0]);
            }
        }
        found
    }

    /// The box is one unit larger on each side.
    fn models(&mut self, told: &[Json]) {
        let mut first = 0;
        let row = |model: &Json| {
            let box_of = |name: &str, by: f32| -> Vec<u64> {
                model.numbers(name).into_iter().map(|x| float_word(x as f32 + by)).collect()
            };
            let mut words =
                [box_of("mins", -1.0), box_of("maxs", 1.0), box_of("origin", 0.0)].concat();
            words.extend(model.numbers("headnode").into_iter().take(3).map(signed));
            words
        };
        self.table("bspinfo, models", paper::MODELS, told.iter().map(row).collect());
        for (index, model) in told.iter().enumerate() {
            let Some(words) = self.record(paper::MODELS, index) else { continue };
            let number = |name: &str| signed(model.numbers(name)[0]);
            let leaves = number("visleafs");
            let wanted = [first, leaves, number("firstface"), number("numfaces"), first + leaves];
            let equal = words[15..20] == wanted;
            self.judge("bspinfo, leaves and faces of models", equal, || {
                format!("{index}: {words:?}, bspinfo {wanted:?}")
            });
            first += leaves;
        }
    }

    fn textures(&mut self, told: &[Json]) {
        let count = self.asked.paper().texture_count;
        self.judge("bspinfo, counts", count == told.len() as u64, || format!("{count} textures"));
        for (index, texture) in told.iter().enumerate() {
            let Asked { calls, file, map, .. } = *self.asked;
            let mut out = [0; TEXTURE_WORDS];
            let refusal = (calls.texture)(file, map, index as u64, &mut out);
            let mut name = [out[1].to_le_bytes(), out[2].to_le_bytes()].concat();
            name.truncate(name.iter().position(|byte| *byte == 0).unwrap_or(16));
            let expected = match texture.text("name") {
                None => (0, Vec::new(), 0, 0),
                Some(text) => {
                    let side = |side: &str| signed(texture.numbers(side)[0]);
                    (1, text.to_lowercase().into_bytes(), side("width"), side("height"))
                }
            };
            let equal = refusal == 0 && (out[0], name.clone(), out[3], out[4]) == expected;
            self.judge("bspinfo, textures", equal, || {
                format!("{index}: {refusal} {out:x?}, bspinfo {expected:?}")
            });
        }
    }

    /// The text with its zero byte.
    fn entities(&mut self, told: Option<&str>) {
        let Asked { calls, file, map, .. } = *self.asked;
        let mut out = [0; 2];
        let refusal = (calls.entities)(file, map, &mut out);
        let text = file.get(out[0] as usize..(out[0] + out[1]) as usize).unwrap_or(&[]);
        let equal = refusal == 0 && told.map(str::as_bytes) == Some(text);
        self.judge("bspinfo, entity texts", equal, || format!("{refusal} {out:?}"));
    }

    /// A section of bytes, which bspinfo writes as digits without a gap or a zero before them.
    fn bytes(&mut self, section: usize, told: &str) {
        let page = self.asked.paper();
        let (from, size) = (page.offset(section) as usize, page.size(section) as usize);
        let digits =
            |bytes: &[u8]| bytes.iter().map(|byte| format!("{byte:x}")).collect::<String>();
        let ours = self.asked.file.get(from..from + size).map(digits).unwrap_or_default();
        self.judge("bspinfo, sections of bytes", ours == told, || format!("section {section}"));
    }
}

fn values(list: &Json) -> Vec<f64> {
    match list {
        Json::List(list) => list.iter().filter_map(Json::number).collect(),
        _ => Vec::new(),
    }
}

fn floats(values: &[f64]) -> Vec<u64> {
    values.iter().map(|x| float(*x)).collect()
}

//! id Software's own code beside the calls on a compiled map: point contents, whole lines and rows of
//! visibility, from every model's hulls.
//!
//! Nodes and planes are handed over as loading makes them, with each leaf's contents in the place of its
//! number; then the answers must be the same, but for what the notes rule: the sign of a turned distance of
//! 0, and leaves without a row. In lines of their own the same with the planes' normals as the file has
//! them, as id's engine takes them: loading normalises a slanted one anew.

use maps::Seed;
use richter::map::Map;

use super::Place;
use crate::calls::asked::Asked;
use crate::calls::words;
use crate::calls::{LINE_WORDS, WALK_WORDS};
use crate::modes::line;
use crate::modes::line_peer::{is_tame, Peer, PeerNode, PeerPlane};
use crate::modes::walks::bits_of;
use crate::paper::{self, fields::float_word};
use crate::report::board::{Board, Side};

extern "C" {
    fn peer_line_from(
        planes: *const PeerPlane,
        nodes: *const PeerNode,
        count: i32,
        root: i32,
        segment: *const f32,
        out: *mut f32,
        flags: *mut i32,
    );
    fn peer_contents(
        planes: *const PeerPlane,
        nodes: *const PeerNode,
        count: i32,
        root: i32,
        point: *const f32,
    ) -> i32;
    fn peer_row(row: *mut u8, leaves: i32) -> *const u8;
}

/// A root of a table, which passed the tree check.
struct Root<'a> {
    peer: &'a Peer,
    /// The planes to go by: as loaded, or as the file has them.
    planes: &'a [PeerPlane],
    root: i32,
}

impl Root<'_> {
    fn contents(&self, p: &[f32; 3]) -> u64 {
        let (planes, nodes) = (self.planes.as_ptr(), self.peer.nodes.as_ptr());
        // SAFETY: the tree check passed, so that every child and plane is in its table
        let code = unsafe {
            peer_contents(planes, nodes, self.peer.nodes.len() as i32, self.root, p.as_ptr())
        };
        -code as u64
    }

    fn line(&self, segment: &[f32; 6]) -> [u64; LINE_WORDS] {
        let (mut floats, mut flags) = ([0.0; 8], [0; 4]);
        // SAFETY: as above; the lists are as long as the answer
        unsafe {
            peer_line_from(
                self.planes.as_ptr(),
                self.peer.nodes.as_ptr(),
                self.peer.nodes.len() as i32,
                self.root,
                segment.as_ptr(),
                floats.as_mut_ptr(),
                flags.as_mut_ptr(),
            )
        };
        let words = floats.map(float_word).into_iter();
        let mut words = words.chain(flags.map(|flag| flag as u64));
        [0; LINE_WORDS].map(|_| words.next().expect("twelve words"))
    }
}

pub fn all(board: &mut Board, asked: &Asked, seed: &mut Seed, rust: &Map, many: usize) {
    let page = asked.paper();
    let own = own_planes(&page);
    let peers = [0, 1].map(|table| Peer::of(&page, table));
    for model in 0..rust.models().len() {
        let mut place = Place::of(rust, model);
        for index in 0..3 {
            let Ok(hull) = rust.hull(model, index) else { continue };
            let words = words::hull(index.min(1) as u64, &hull);
            let peer = &peers[index.min(1)];
            let tame = peer.planes.iter().all(|p| is_tame(&p.normal) && is_tame(&[p.dist]));
            let root = words[1] as i32;
            // id's code asks that the root has the least number of its tree
            if !tame || !line::is_checked(asked, &words) || peer.least_of(root) < root {
                board.count("peer, hulls left out", (0, Side::Paper), None, || (0, String::new()));
                continue;
            }
            board.count("peer, hulls", (0, Side::Paper), None, || (0, String::new()));
            let roots = [&peer.planes, &own].map(|planes| Root { peer, planes, root });
            let many = if model == 0 { many } else { many / 5 };
            for n in 0..many {
                let (p, s) = (place.point(seed, n), place.segment(seed, n));
                if is_tame(&p) {
                    contents(board, asked, &words, &roots, &p);
                }
                if is_tame(&s) {
                    whole_line(board, asked, &words, &roots, &s);
                }
            }
        }
    }
    rows(board, asked, rust);
}

/// The planes with normals as the file has them.
fn own_planes(page: &paper::Map) -> Vec<PeerPlane> {
    let float = |at: u64| {
        let at = at as usize;
        f32::from_le_bytes(page.file[at..at + 4].try_into().expect("four bytes"))
    };
    (0..page.count(paper::PLANES))
        .map(|n| {
            let at = page.offset(paper::PLANES) + 20 * n;
            let kind = float(at + 16).to_bits() as i32;
            PeerPlane { normal: [0, 4, 8].map(|by| float(at + by)), dist: float(at + 12), kind }
        })
        .collect()
}

fn contents(board: &mut Board, asked: &Asked, hull: &[u64], roots: &[Root; 2], p: &[f32; 3]) {
    let mut ours = [7; WALK_WORDS];
    let refusal = (asked.calls.contents)(asked.file, asked.map, hull, p, &mut ours);
    let theirs = roots.each_ref().map(|root| root.contents(p));
    let difference = (refusal != 0 || ours[0] != theirs[0])
        .then(|| format!("answers {refusal} {}, the peer {}", ours[0], theirs[0]));
    board.count("peer, contents", (refusal, Side::Paper), difference, || {
        asked.input(format!("hull {hull:?}, point {}", bits_of(p)))
    });
    let line = match ours[0] == theirs[1] {
        true => "peer, contents by the file's normals: the same",
        false => "peer, contents by the file's normals: others",
    };
    board.count(line, (0, Side::Paper), None, || (0, String::new()));
}

fn whole_line(board: &mut Board, asked: &Asked, hull: &[u64], roots: &[Root; 2], s: &[f32; 6]) {
    let mut ours = [7; LINE_WORDS];
    let refusal = (asked.calls.trace_line)(asked.file, asked.map, hull, s, &mut ours);
    let [theirs, by_file] = roots.each_ref().map(|root| root.line(s));
    // 0 less a distance of 0 is 0, and its negation -0
    let turned_zero = ours[7] == 0 && theirs[7] == 0x8000_0000;
    let mut expected = theirs;
    if turned_zero {
        expected[7] = 0;
    }
    let difference = (refusal != 0 || ours != expected)
        .then(|| format!("answers {refusal} {ours:x?}, the peer {theirs:x?}"));
    let line = match (turned_zero, ours[0] < 0x3f80_0000) {
        (true, _) => "peer, a turned plane of distance 0 (0 here, -0 there)",
        (_, true) => "peer, a line with an impact",
        _ => "peer, a line without an impact",
    };
    board.count(line, (refusal, Side::Paper), difference, || {
        asked.input(format!("hull {hull:?}, segment {}", bits_of(s)))
    });
    let line = match theirs == by_file {
        true => "peer, a line by the file's normals: the same",
        false => "peer, a line by the file's normals: another",
    };
    board.count(line, (0, Side::Paper), None, || (0, String::new()));
}

/// The row of every leaf for the world's leaves. Leaf 0 and a leaf without a row see nothing here, and
/// everything there.
fn rows(board: &mut Board, asked: &Asked, rust: &Map) {
    let world = rust.models()[0].leaf_count;
    // what a row that ran off the data would read is no zero, and ends it
    let mut data = rust.visibility().to_vec();
    data.resize(data.len() + world + 2, 0xff);
    let mut list = vec![0; world + 1];
    for (leaf, record) in rust.leaves().iter().enumerate() {
        let mut out = [0; 1];
        let count = world as u64 + 1;
        let refusal =
            (asked.calls.pvs)(asked.file, asked.map, leaf as u64, count, &mut list, &mut out);
        let ours = &list[..out[0] as usize];
        let input = || asked.input(format!("leaf {leaf}, leaf count {count}"));
        let at = match (leaf, record.vis_offset) {
            (0, _) => Err("peer, leaf 0 (nothing here, everything there)"),
            (_, None) => Err("peer, a leaf without a row (nothing here, everything there)"),
            (_, Some(at)) => Ok(at),
        };
        let (line, theirs) = match at {
            Err(line) => (line, Vec::new()),
            Ok(at) if at > rust.visibility().len() => continue,
            Ok(at) => ("peer, a row", unpacked(&mut data[at..], world)),
        };
        let difference = (refusal != 0 || ours != theirs)
            .then(|| format!("answers {refusal} {ours:?}, the peer {theirs:?}"));
        board.count(line, (refusal, Side::Paper), difference, input);
    }
}

/// The leaves that a row names by id's unpacking: bit n is leaf n + 1.
fn unpacked(row: &mut [u8], leaves: usize) -> Vec<u32> {
    // SAFETY: bytes that are no zero follow the data, one for each leaf and more
    let bits = unsafe {
        let bits = peer_row(row.as_mut_ptr(), leaves as i32);
        std::slice::from_raw_parts(bits, leaves.div_ceil(8))
    };
    let seen = |leaf: &u32| bits[(*leaf as usize - 1) / 8] >> ((*leaf - 1) % 8) & 1 == 1;
    (1..=leaves as u32).filter(seen).collect()
}

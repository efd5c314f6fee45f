//! The files that are measured, made in memory. All are accepted.

use second::generate::{layer, Shape};
use second::layout::STRUCTURED;
use second::random::Random;
use second::sheet::{two_byte_spaces, Area, End, Layer, Line, Mesh, Node, Sheet, Side, OUTSIDE};

/// A file, and the kind of each record.
pub struct File {
    pub bytes: Vec<u8>,
    pub kinds: Vec<u8>,
}

impl File {
    /// Puts a mesh behind those before it.
    fn put(&mut self, mesh: Mesh) {
        for (kind, bytes) in (Sheet { meshes: vec![mesh] }).records() {
            self.kinds.push(kind as u8);
            self.bytes.extend(bytes);
        }
    }

    /// How many records the file has.
    pub fn records(&self) -> usize {
        self.kinds.len()
    }

    /// Megabytes, of a million bytes.
    pub fn megabytes(&self) -> f64 {
        self.bytes.len() as f64 / 1e6
    }
}

/// The code of the k-th of the 64 meshes of first mesh 5339, k from 0. Codes rise.
fn mesh_code(k: usize) -> i32 {
    533_900 + (k / 8 * 10 + k % 8) as i32
}

/// A mesh has at most 100,000 records. We stay below, since sizes are not exact.
const IN_MESH: usize = 86_000;

/// So many meshes of a file are drawn. Further ones are the same again, under other codes.
const DRAWN: usize = 8;

/// A file with plain content: areas with islands and lakes, lines of many points, both layers, numbered in the order in which
/// they are drawn, as a supplier's are. About so many records.
pub fn plain(records: usize) -> File {
    drawn(records, false)
}

/// The same with numbers at random: what a number names may stand anywhere in its layer.
pub fn scattered(records: usize) -> File {
    drawn(records, true)
}

fn drawn(records: usize, shuffled: bool) -> File {
    let meshes = records.div_ceil(IN_MESH);
    let random = &mut Random::new(records as u64);
    let side = side_for(records / meshes, shuffled);
    let drawn: Vec<Mesh> = (0..meshes.min(DRAWN)).map(|_| mesh(random, side, shuffled)).collect();
    let mut file = File { bytes: Vec::new(), kinds: Vec::new() };
    for k in 0..meshes {
        file.put(Mesh { code: mesh_code(k), ..drawn[k % DRAWN].clone() });
    }
    file
}

/// How many cells wide and high a mesh is for about so many records. A first guess is drawn and set right.
fn side_for(records: usize, shuffled: bool) -> usize {
    let mut side = (records as f64 / 20.0).sqrt().max(1.0);
    for _ in 0..2 {
        let drawn = mesh(&mut Random::new(records as u64), side as usize, shuffled).length();
        side = (side * (records as f64 / drawn as f64).sqrt()).max(1.0);
    }
    side as usize
}

/// A mesh of both layers, so many cells wide and high.
fn mesh(random: &mut Random, side: usize, shuffled: bool) -> Mesh {
    let shape = Shape {
        columns: side,
        rows: side,
        keep: 80,
        keep_frame: 100,
        islands: 3,
        depth: 1,
        petals: 2,
        cut: 20,
        points: 30,
        shuffled,
    };
    let layers = [1, 5].map(|code| layer(random, code, STRUCTURED, &shape).expect("the lines fit")).to_vec();
    Mesh { code: 0, name: two_byte_spaces(), layers }
}

/// The most lines that a layer has.
const MOST_LINES: i32 = 9999;

/// The worst file for a nested scan: in each layer one area, and its one loop has 9,999 lines of two points.
pub fn worst(meshes: usize) -> File {
    let mut file = File { bytes: Vec::new(), kinds: Vec::new() };
    for k in 0..meshes {
        let layers = vec![worst_layer(1), worst_layer(5)];
        file.put(Mesh { code: mesh_code(k), name: two_byte_spaces(), layers });
    }
    file
}

/// A layer of one area. Its lines run around the frame.
fn worst_layer(code: i32) -> Layer {
    let right = Side { code: 13101, zeros: false, area: 1 };
    let nodes = (1..=MOST_LINES).map(|n| Node { item: 1, place: around(n), entries: vec![n, -before(n)] });
    let line = |n: i32| Line {
        item: 9,
        kind: 9,
        ends: [n, behind(n)].map(|node| End { node, link: 1 }),
        left: OUTSIDE,
        right,
        points: vec![around(n), around(behind(n))],
    };
    let loops = vec![(1..=MOST_LINES).collect()];
    Layer {
        code,
        letters: STRUCTURED,
        first_made: 0,
        last_changed: 0,
        nodes: nodes.collect(),
        lines: (1..=MOST_LINES).map(line).collect(),
        areas: vec![Area { code: right.code, zeros: false, place: (5000, 5000), loops, name: two_byte_spaces() }],
    }
}

/// The line before line n, around the loop.
fn before(n: i32) -> i32 {
    if n == 1 {
        MOST_LINES
    } else {
        n - 1
    }
}

/// The line behind line n, around the loop.
fn behind(n: i32) -> i32 {
    n % MOST_LINES + 1
}

/// The place of node n: clockwise along the frame from its south-west corner, four steps from node to node.
fn around(n: i32) -> (i32, i32) {
    let steps = 4 * (n - 1);
    let along = steps % 10_000;
    match steps / 10_000 {
        0 => (0, along),
        1 => (along, 10_000),
        2 => (10_000, 10_000 - along),
        _ => (10_000 - along, 0),
    }
}

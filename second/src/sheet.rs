//! A sheet in memory, to be written as a file. Totals and serials are right unless the sheet is damaged later.

use crate::layout::{Kind, RECORD, STRUCTURED, UNSTRUCTURED};
use crate::records::{bytes_of, Value};
use crate::walk::loop_serial;

#[derive(Clone, Debug)]
pub struct Sheet {
    pub meshes: Vec<Mesh>,
}

#[derive(Clone, Debug)]
pub struct Mesh {
    pub code: i32,
    pub name: [u8; 20],
    pub layers: Vec<Layer>,
}

#[derive(Clone, Debug)]
pub struct Layer {
    pub code: i32,
    /// 1 for H1, 2 for H2.
    pub letters: u32,
    pub first_made: i32,
    pub last_changed: i32,
    pub nodes: Vec<Node>,
    pub lines: Vec<Line>,
    pub areas: Vec<Area>,
}

#[derive(Clone, Debug)]
pub struct Node {
    pub item: i32,
    pub place: (i32, i32),
    pub entries: Vec<i32>,
}

#[derive(Clone, Debug)]
pub struct Line {
    pub item: i32,
    pub kind: i32,
    pub ends: [End; 2],
    pub left: Side,
    pub right: Side,
    pub points: Vec<(i32, i32)>,
}

#[derive(Clone, Copy, Debug)]
pub struct End {
    pub node: i32,
    pub link: i32,
}

#[derive(Clone, Copy, Debug, PartialEq, Eq)]
pub struct Side {
    pub code: i32,
    /// Land is spelled with four zeros here. Says nothing of another code, or in layer 1.
    pub zeros: bool,
    pub area: i32,
}

#[derive(Clone, Debug)]
pub struct Area {
    pub code: i32,
    /// As in a side.
    pub zeros: bool,
    pub place: (i32, i32),
    pub loops: Vec<Vec<i32>>,
    pub name: [u8; 40],
}

/// Outside the frame.
pub const OUTSIDE: Side = Side { code: 88888, zeros: false, area: 0 };

/// What stands on both sides of a line in an unstructured layer.
pub const NOTHING: Side = Side { code: 0, zeros: false, area: 0 };

pub fn on_frame(place: (i32, i32)) -> bool {
    [0, 10_000].contains(&place.0) || [0, 10_000].contains(&place.1)
}

/// A row of records with their kinds.
pub type Records = Vec<(Kind, [u8; RECORD])>;

/// The bytes of a row of records.
pub fn joined(records: &Records) -> Vec<u8> {
    records.iter().flat_map(|(_, bytes)| *bytes).collect()
}

impl Sheet {
    pub fn bytes(&self) -> Vec<u8> {
        joined(&self.records())
    }

    pub fn records(&self) -> Records {
        let mut records = Vec::new();
        self.meshes.iter().for_each(|mesh| mesh.put(&mut records));
        records
    }
}

impl Mesh {
    /// All records of the mesh.
    pub fn length(&self) -> usize {
        1 + self.behind()
    }

    /// The records behind the M, those that its total tells: each layer's H and what is behind it.
    pub fn behind(&self) -> usize {
        self.layers.iter().map(|layer| 1 + layer.behind()).sum()
    }

    fn put(&self, records: &mut Records) {
        let sum = |count: fn(&Layer) -> usize| self.layers.iter().map(count).sum::<usize>() as i32;
        let numbers = [
            self.code,
            self.layers.len() as i32,
            sum(|layer| layer.nodes.len()),
            sum(|layer| layer.lines.len()),
            sum(|layer| layer.areas.len()),
            0,
            self.behind() as i32,
        ];
        put(records, Kind::M, &numbers, &self.name);
        self.layers.iter().for_each(|layer| layer.put(records));
    }
}

impl Layer {
    /// The records behind the H, those that its total tells.
    pub fn behind(&self) -> usize {
        let lines: usize = self.lines.iter().map(|line| 1 + line.points.len().div_ceil(7)).sum();
        let loops = |area: &Area| area.loops.iter().map(|one| one.len().div_ceil(12)).sum::<usize>();
        let areas: usize = self.areas.iter().map(|area| 1 + loops(area)).sum();
        self.nodes.len() + lines + areas
    }

    fn put(&self, records: &mut Records) {
        let numbers = [
            self.code,
            self.nodes.len() as i32,
            self.lines.len() as i32,
            self.areas.len() as i32,
            0,
            self.behind() as i32,
            self.first_made,
            self.last_changed,
        ];
        put_value(records, Value { letters: self.letters, ..Value::empty(Kind::H) }, &numbers, &[]);
        for (index, node) in self.nodes.iter().enumerate() {
            self.put_node(index as i32 + 1, node, records);
        }
        for (index, line) in self.lines.iter().enumerate() {
            self.put_line(index as i32 + 1, line, records);
        }
        for (index, area) in self.areas.iter().enumerate() {
            self.put_area(index as i32 + 1, area, records);
        }
    }

    /// The mark of a code of this layer.
    fn mark(&self, code: i32, zeros: bool) -> u32 {
        u32::from(zeros && code == 0 && self.code == 5)
    }

    fn put_node(&self, serial: i32, node: &Node, records: &mut Records) {
        let (x, y) = node.place;
        let frame = i32::from(on_frame(node.place));
        let mut numbers = vec![self.code, node.item, serial, x, y, frame, node.entries.len() as i32];
        numbers.extend(&node.entries);
        put(records, Kind::N, &numbers, &[]);
    }

    fn put_line(&self, serial: i32, line: &Line, records: &mut Records) {
        let [start, end] = line.ends;
        let numbers = [
            self.code,
            line.item,
            serial,
            line.kind,
            start.node,
            start.link,
            end.node,
            end.link,
            line.left.code,
            line.left.area,
            line.right.code,
            line.right.area,
            line.points.len() as i32,
            0,
            0,
        ];
        let marks = [line.left, line.right].map(|side| self.mark(side.code, side.zeros));
        put_value(records, Value { marks, ..Value::empty(Kind::L) }, &numbers, &[]);
        for part in line.points.chunks(7) {
            let numbers: Vec<i32> = part.iter().flat_map(|(x, y)| [*x, *y]).collect();
            put(records, Kind::Coordinates, &numbers, &[]);
        }
    }

    fn put_area(&self, serial: i32, area: &Area, records: &mut Records) {
        let lines: usize = area.loops.iter().map(Vec::len).sum();
        let (x, y) = area.place;
        let numbers = [self.code, area.code, serial, x, y, area.loops.len() as i32, lines as i32];
        let marks = [self.mark(area.code, area.zeros), 0];
        put_value(records, Value { marks, ..Value::empty(Kind::A) }, &numbers, &area.name);
        for (index, one) in area.loops.iter().enumerate() {
            for part in one.chunks(12) {
                let mut numbers = vec![loop_serial(index as i32 + 1), one.len() as i32];
                numbers.extend(part);
                put(records, Kind::Loop, &numbers, &[]);
            }
        }
    }
}

fn put(records: &mut Records, kind: Kind, numbers: &[i32], name: &[u8]) {
    put_value(records, Value::empty(kind), numbers, name);
}

/// A value that has its kind, marks and letters.
fn put_value(records: &mut Records, mut value: Value, numbers: &[i32], name: &[u8]) {
    value.numbers[..numbers.len()].copy_from_slice(numbers);
    value.name[..name.len()].copy_from_slice(name);
    records.push((value.kind, bytes_of(&value).expect("a value of a sheet fits")));
}

/// Two-byte spaces, 81 40.
pub fn two_byte_spaces<const LENGTH: usize>() -> [u8; LENGTH] {
    std::array::from_fn(|index| if index % 2 == 0 { 0x81 } else { 0x40 })
}

/// Sheet S, the smallest sheet (RULES 11.1).
pub fn sheet_s() -> Sheet {
    let line = Line {
        item: 9,
        kind: 9,
        ends: [End { node: 1, link: 2 }; 2],
        left: OUTSIDE,
        right: Side { code: 13101, zeros: false, area: 1 },
        points: vec![(0, 0), (0, 10_000), (10_000, 10_000), (10_000, 0), (0, 0)],
    };
    let area = Area { code: 13101, zeros: false, place: (5000, 5000), loops: vec![vec![1]], name: two_byte_spaces() };
    let layer = Layer {
        code: 1,
        letters: STRUCTURED,
        first_made: 0,
        last_changed: 0,
        nodes: vec![Node { item: 3, place: (0, 0), entries: vec![1, -1] }],
        lines: vec![line],
        areas: vec![area],
    };
    Sheet { meshes: vec![Mesh { code: 533_945, name: two_byte_spaces(), layers: vec![layer] }] }
}

/// Sheet S as a sheet of layer 5 with land on its whole ground, which is spelled both ways (RULES 11.3).
pub fn land_s() -> Sheet {
    let mut sheet = sheet_s();
    let layer = &mut sheet.meshes[0].layers[0];
    layer.code = 5;
    layer.nodes[0].item = 1;
    layer.lines[0].right = Side { code: 0, zeros: true, area: 1 };
    layer.areas[0].code = 0;
    sheet
}

/// Sheet S as an unstructured layer (RULES 11.4).
pub fn lines_s() -> Sheet {
    let mut sheet = sheet_s();
    without_areas(&mut sheet.meshes[0].layers[0]);
    sheet
}

/// The same in layer 5, with a left code that is spelled as land is (RULES 11.4).
pub fn land_lines_s() -> Sheet {
    let mut sheet = land_s();
    let layer = &mut sheet.meshes[0].layers[0];
    without_areas(layer);
    layer.lines[0].left.zeros = true;
    sheet
}

/// The layer as an unstructured one: its lines alone.
pub fn without_areas(layer: &mut Layer) {
    layer.letters = UNSTRUCTURED;
    layer.areas.clear();
    for line in &mut layer.lines {
        (line.left, line.right) = (NOTHING, NOTHING);
    }
}

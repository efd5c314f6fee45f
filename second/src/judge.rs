//! The judge: stages 3 to 6, the table, the measures and the answer.

use crate::layout::Kind;
use crate::records::{Broken, Refusal};
use crate::sums::{layer_sums, Sums};
use crate::walk::{stage_1, stage_2, Area, Found, Layer, Line, Loop, Node, Point};
use std::collections::HashSet;

/// How many of each the whole file has. All are 0 if it is refused.
#[derive(Clone, Copy, Debug, PartialEq, Eq, Default)]
pub struct Counts {
    pub meshes: u32,
    pub layers: u32,
    pub nodes: u32,
    pub lines: u32,
    pub areas: u32,
    pub records: u32,
}

/// The judge's answer. The need is told with 9 only.
#[derive(Clone, Copy, Debug, PartialEq, Eq, Default)]
pub struct Outcome {
    pub refusal: Refusal,
    pub counts: Counts,
    pub need: u64,
}

/// All that can be said about a file before any buffer is lent.
#[derive(Clone, Debug, Default)]
pub struct Verdict {
    /// The refusal of stages 1 and 2, or number 0.
    pub early: Refusal,
    /// The refusal of stages 3 to 6, or number 0.
    pub late: Refusal,
    /// The table, if there is no early refusal.
    pub table: Vec<u32>,
    /// How many layers the file has, if there is no early refusal.
    pub layers: usize,
    /// What stands in the answer if the file is accepted.
    pub counts: Counts,
    /// The areas' measures in file order, if the file is accepted.
    pub measures: Vec<i64>,
    /// The sums of each layer, if the file is accepted.
    pub sums: Vec<Sums>,
    /// The kinds of the records, as far as the walk came.
    pub kinds: Vec<Kind>,
}

impl Verdict {
    /// The words that the table needs, or 0 for a file refused in stage 1 or 2.
    pub fn need(&self) -> u64 {
        self.table.len() as u64
    }

    /// The answer to buffers of this many words and measures.
    pub fn outcome(&self, words: usize, areas: usize) -> Outcome {
        let nowhere = |number| Refusal { number, record: 0, column: 0 };
        let mut outcome = Outcome::default();
        if self.early.number != 0 {
            outcome.refusal = self.early;
        } else if (words as u64) < self.need() {
            outcome.refusal = nowhere(9);
            outcome.need = self.need();
        } else if self.late.number != 0 {
            outcome.refusal = self.late;
        } else if areas < self.measures.len() {
            outcome.refusal = nowhere(19);
        } else {
            outcome.counts = self.counts;
        }
        outcome
    }

    /// The table stands after this answer: every answer but 1 to 9.
    pub fn table_stands(&self, words: usize) -> bool {
        self.early.number == 0 && words as u64 >= self.need()
    }
}

/// Judges a file and fills the buffers.
pub fn judge(file: &[u8], table: &mut [u32], measures: &mut [i64]) -> Outcome {
    let verdict = verdict(file);
    let outcome = verdict.outcome(table.len(), measures.len());
    if verdict.table_stands(table.len()) {
        table[..verdict.table.len()].copy_from_slice(&verdict.table);
    }
    if outcome.refusal.number == 0 {
        measures[..verdict.measures.len()].copy_from_slice(&verdict.measures);
    }
    outcome
}

/// Runs the stages over a file.
pub fn verdict(file: &[u8]) -> Verdict {
    verdict_by(file, |_| ())
}

/// The same of a judge that takes what stage 2 finds for something else before the later stages look at it. Wrong judges are
/// made so.
pub fn verdict_by(file: &[u8], mistake: impl FnOnce(&mut Found)) -> Verdict {
    let mut verdict = Verdict::default();
    let mut kinds = Vec::new();
    let walked = stage_1(file).and_then(|()| stage_2(file, &mut kinds));
    verdict.kinds = kinds;
    match walked {
        Err(refusal) => verdict.early = refusal,
        Ok(mut found) => {
            mistake(&mut found);
            verdict.table = table(&found);
            verdict.layers = found.layers().count();
            match later_stages(&found) {
                Err(refusal) => verdict.late = refusal,
                Ok(()) => accept(&found, &mut verdict),
            }
        }
    }
    verdict
}

fn accept(found: &Found, verdict: &mut Verdict) {
    verdict.counts = counts(found);
    for layer in found.layers() {
        verdict.measures.extend(layer.areas.iter().map(|area| whole(area_measure(layer, area))));
        verdict.sums.push(layer_sums(layer));
    }
}

fn counts(found: &Found) -> Counts {
    let sum = |count: fn(&Layer) -> usize| found.layers().map(count).sum::<usize>() as u32;
    Counts {
        meshes: found.meshes.len() as u32,
        layers: sum(|_| 1),
        nodes: sum(|layer| layer.nodes.len()),
        lines: sum(|layer| layer.lines.len()),
        areas: sum(|layer| layer.areas.len()),
        records: found.records,
    }
}

/// One row a layer, then every line's L record, then every area's A record.
fn table(found: &Found) -> Vec<u32> {
    let row = |layer: &Layer| {
        let counts = [layer.nodes.len(), layer.lines.len(), layer.areas.len()];
        let [nodes, lines, areas] = counts.map(|count| count as u32);
        [layer.record, nodes, lines, areas, layer.letters]
    };
    let rows = found.layers().flat_map(row);
    let lines = found.layers().flat_map(|layer| layer.lines.iter().map(|line| line.record));
    let areas = found.layers().flat_map(|layer| layer.areas.iter().map(|area| area.record));
    rows.chain(lines).chain(areas).collect()
}

// Measures.

/// A sum that fits 64 bits.
pub fn whole(measure: i128) -> i64 {
    i64::try_from(measure).expect("a measure of a file fits 64 bits")
}

pub fn line_measure(line: &Line) -> i128 {
    line.points.windows(2).map(|pair| cross(pair[0], pair[1])).sum()
}

/// x2*y1 - x1*y2.
fn cross(one: Point, two: Point) -> i128 {
    let ((x1, y1), (x2, y2)) = (one, two);
    i128::from(x2) * i128::from(y1) - i128::from(x1) * i128::from(y2)
}

fn loop_measure(layer: &Layer, one: &Loop) -> i128 {
    let measure = |entry: &i32| i128::from(entry.signum()) * line_measure(layer.line(*entry));
    one.entries.iter().map(measure).sum()
}

pub fn area_measure(layer: &Layer, area: &Area) -> i128 {
    area.loops.iter().map(|one| loop_measure(layer, one)).sum()
}

// What numbers name.

impl Layer {
    /// The line that an entry names. Stage 4 has seen that there is one.
    fn line(&self, entry: i32) -> &Line {
        named(&self.lines, entry.abs()).expect("an entry names a line after stage 4")
    }
}

/// Serials run from 1, so number n names the n-th.
fn named<T>(list: &[T], number: i32) -> Option<&T> {
    list.get(usize::try_from(number).ok()?.checked_sub(1)?)
}

/// Serials of a list, with their members.
fn numbered<T>(list: &[T]) -> impl Iterator<Item = (i32, &T)> {
    list.iter().enumerate().map(|(index, member)| (index as i32 + 1, member))
}

// The later stages. Each runs over the whole file, if the one before broke no rule.

fn later_stages(found: &Found) -> Result<(), Refusal> {
    let mut broken = Broken::default();
    stage_3(found, &mut broken);
    for stage in [stage_4, stage_5, stage_6] {
        broken.result()?;
        found.layers().for_each(|layer| stage(layer, &mut broken));
    }
    broken.result()
}

/// Totals. A records total tells the records behind the one that bears it.
fn stage_3(found: &Found, broken: &mut Broken) {
    for mesh in &found.meshes {
        let sum = |count: fn(&Layer) -> usize| mesh.layers.iter().map(count).sum::<usize>() as i64;
        let counted = [
            sum(|layer| layer.nodes.len()),
            sum(|layer| layer.lines.len()),
            sum(|layer| layer.areas.len()),
            i64::from(mesh.behind),
        ];
        for (column, (told, counted)) in [32, 37, 42, 52].into_iter().zip(mesh.told.iter().zip(counted)) {
            if i64::from(*told) != counted {
                broken.rule(10, mesh.record, column);
            }
        }
    }
    for layer in found.layers() {
        if i64::from(layer.told_records) != i64::from(layer.behind) {
            broken.rule(10, layer.record, 25);
        }
        for area in &layer.areas {
            let lines: usize = area.loops.iter().map(|one| one.entries.len()).sum();
            if area.told_lines as usize != lines {
                broken.rule(10, area.record, 29);
            }
        }
    }
}

/// Numbers name something and agree with it.
fn stage_4(layer: &Layer, broken: &mut Broken) {
    for (serial, node) in numbered(&layer.nodes) {
        judge_node(layer, serial, node, broken);
    }
    for (serial, line) in numbered(&layer.lines) {
        judge_end(layer, serial, line, broken);
        judge_end(layer, -serial, line, broken);
        judge_side(layer, line.record, 30, line.left_code, line.left, broken);
        judge_side(layer, line.record, 40, line.right_code, line.right, broken);
    }
    for one in layer.areas.iter().flat_map(|area| &area.loops) {
        for (index, entry) in one.entries.iter().enumerate() {
            if named(&layer.lines, entry.abs()).is_none() {
                let (record, column) = one.slot(index);
                broken.rule(11, record, column);
            }
        }
    }
}

fn judge_node(layer: &Layer, serial: i32, node: &Node, broken: &mut Broken) {
    for (index, entry) in node.entries.iter().enumerate() {
        let column = 26 + 5 * index as u32;
        match named(&layer.lines, entry.abs()) {
            None => broken.rule(11, node.record, column),
            Some(line) => {
                let end = if *entry > 0 { line.start } else { line.end };
                if named(&layer.nodes, end).is_some() && end != serial {
                    broken.rule(12, node.record, column);
                }
            }
        }
        if node.entries[..index].contains(entry) {
            broken.rule(13, node.record, column);
        }
    }
}

/// One end of a line: its start for the entry +n, its end for -n.
fn judge_end(layer: &Layer, entry: i32, line: &Line, broken: &mut Broken) {
    let last = line.points.len() - 1;
    let (number, link, column, point) =
        if entry > 0 { (line.start, line.start_link, 18, 0) } else { (line.end, line.end_link, 24, last) };
    let Some(node) = named(&layer.nodes, number) else {
        broken.rule(11, line.record, column);
        return;
    };
    if !node.entries.contains(&entry) {
        broken.rule(14, line.record, column);
    }
    if (link != 0) != node.on_frame {
        broken.rule(12, line.record, column + 5);
    }
    if line.points[point] != node.place {
        broken.rule(12, line.record + 1 + (point / 7) as u32, 1 + 10 * (point % 7) as u32);
    }
}

/// One side of a line: its code at a column, its area five columns on.
fn judge_side(layer: &Layer, record: u32, column: u32, code: i32, area: i32, broken: &mut Broken) {
    if area == 0 {
        return;
    }
    match named(&layer.areas, area) {
        None => broken.rule(11, record, column + 5),
        Some(area) if area.code != code => broken.rule(12, record, column),
        Some(_) => (),
    }
}

/// Loops.
fn stage_5(layer: &Layer, broken: &mut Broken) {
    for (serial, area) in numbered(&layer.areas) {
        let mut earlier = HashSet::new();
        for (number, one) in numbered(&area.loops) {
            let measure = loop_measure(layer, one);
            if measure == 0 || (measure > 0) != (number == 1) {
                broken.rule(16, one.record, 1);
            }
            for (index, entry) in one.entries.iter().enumerate() {
                let (record, column) = one.slot(index);
                if !earlier.insert(*entry) {
                    broken.rule(13, record, column);
                }
                let before = if index == 0 { one.entries.len() } else { index } - 1;
                if first_node(layer, *entry) != last_node(layer, one.entries[before]) {
                    broken.rule(15, record, column);
                }
                if side(layer.line(*entry), *entry) != serial {
                    broken.rule(17, record, column);
                }
            }
        }
    }
}

fn first_node(layer: &Layer, entry: i32) -> i32 {
    let line = layer.line(entry);
    if entry > 0 {
        line.start
    } else {
        line.end
    }
}

fn last_node(layer: &Layer, entry: i32) -> i32 {
    first_node(layer, -entry)
}

/// The area that lists an entry: the right one for +n, the left one for -n.
fn side(line: &Line, entry: i32) -> i32 {
    if entry > 0 {
        line.right
    } else {
        line.left
    }
}

/// Every side that is an area stands in a loop of it.
fn stage_6(layer: &Layer, broken: &mut Broken) {
    let mut listed: HashSet<(i32, i32)> = HashSet::new();
    for (serial, area) in numbered(&layer.areas) {
        let entries = area.loops.iter().flat_map(|one| &one.entries);
        listed.extend(entries.map(|entry| (serial, *entry)));
    }
    for (serial, line) in numbered(&layer.lines) {
        for (entry, column) in [(-serial, 35), (serial, 45)] {
            let area = side(line, entry);
            if area != 0 && !listed.contains(&(area, entry)) {
                broken.rule(18, line.record, column);
            }
        }
    }
}

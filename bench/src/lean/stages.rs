//! Stages 3 to 6 of one layer, from its lists.

use super::walk::{on_frame, Layer, Loop, Mesh};
use second::records::Refusal;

type Kept = Result<(), Refusal>;

/// A rule at a record and a column: broken, it gives this number.
fn rule(number: u32, record: u32, column: u32, kept: bool) -> Kept {
    if kept {
        Ok(())
    } else {
        Err(Refusal { number, record, column })
    }
}

/// What stages 3 to 6 have found so far.
#[derive(Default)]
pub struct Later {
    /// The earliest stage with a broken rule, and its first refusal.
    broken: Option<(u32, Refusal)>,
    /// The areas' measures in file order, as long as no rule is broken.
    pub measures: Vec<i64>,
    marks: Marks,
}

/// Marks for a layer's entries, two a line: one for +n and one for -n.
#[derive(Default)]
struct Marks {
    /// The entry stands at its node.
    listed: Vec<[bool; 2]>,
    /// The area whose loops have the entry, or 0.
    area: Vec<[i32; 2]>,
}

impl Later {
    /// The first refusal of the earliest stage that is broken.
    pub fn result(&self) -> Kept {
        match self.broken {
            None => Ok(()),
            Some((_, refusal)) => Err(refusal),
        }
    }

    /// Runs the stages over a layer. A stage that is broken already, and those after it, have no more to say.
    pub fn layer(&mut self, layer: &Layer) {
        for stage in 3..self.broken.map_or(7, |(stage, _)| stage) {
            let kept = match stage {
                3 => stage_3(layer),
                4 => stage_4(layer, &mut self.marks),
                5 => stage_5(layer, &mut self.marks, &mut self.measures),
                _ => stage_6(layer, &self.marks),
            };
            if let Err(refusal) = kept {
                self.broken = Some((stage, refusal));
                return;
            }
        }
    }

    /// The totals of an M. It stands before its layers, so its refusal goes before theirs.
    pub fn mesh(&mut self, mesh: &Mesh) {
        let totals = mesh.told.into_iter().zip(mesh.counted);
        for (column, (told, counted)) in [32, 37, 42, 52].into_iter().zip(totals) {
            let first = self.broken.is_none_or(|(stage, refusal)| stage > 3 || refusal.record > mesh.record);
            if told as u32 != counted && first {
                self.broken = Some((3, Refusal { number: 10, record: mesh.record, column }));
            }
        }
    }
}

/// Totals of the H and of each A.
fn stage_3(layer: &Layer) -> Kept {
    rule(10, layer.record, 25, layer.told_records as u32 == layer.behind)?;
    let mut loops = layer.loops.iter();
    for area in &layer.areas {
        let lines: u32 = loops.by_ref().take(area.loops as usize).map(|one| one.count).sum();
        rule(10, area.record, 29, area.told_lines as u32 == lines)?;
    }
    Ok(())
}

/// The line of an entry, counted from 0, and the entry's place in a pair.
#[inline(always)]
fn place(entry: i32) -> (usize, usize) {
    (entry.unsigned_abs() as usize - 1, usize::from(entry < 0))
}

/// Serials run from 1, so number n names the n-th.
#[inline(always)]
fn named<T>(list: &[T], number: i32) -> Option<&T> {
    list.get((number as usize).wrapping_sub(1))
}

/// Numbers name something and agree with it.
fn stage_4(layer: &Layer, marks: &mut Marks) -> Kept {
    marks.listed.clear();
    marks.listed.resize(layer.lines.len(), [false; 2]);
    judge_nodes(layer, &mut marks.listed)?;
    judge_lines(layer, &marks.listed)?;
    let mut entries = &layer.entries[..];
    for one in &layer.loops {
        let (here, rest) = entries.split_at(one.count as usize);
        entries = rest;
        if let Some(index) = here.iter().position(|entry| place(*entry).0 >= layer.lines.len()) {
            let (record, column) = slot(one, index);
            rule(11, record, column, false)?;
        }
    }
    Ok(())
}

/// Each entry of a node: its line is there and starts there, and no entry repeats an earlier one.
/// An entry that starts at its node can stand there only, so a mark tells that it repeats one.
fn judge_nodes(layer: &Layer, listed: &mut [[bool; 2]]) -> Kept {
    let mut entries = &layer.node_entries[..];
    for (index, node) in layer.nodes.iter().enumerate() {
        let record = layer.record + 1 + index as u32;
        let (here, rest) = entries.split_at(usize::from(node.count));
        entries = rest;
        for (slot, entry) in here.iter().enumerate() {
            let column = 26 + 5 * slot as u32;
            let (line, end) = place(*entry);
            let Some(ends) = layer.ends.get(line) else {
                return rule(11, record, column, false);
            };
            if ends[end] == index as i32 + 1 {
                rule(13, record, column, !listed[line][end])?;
                listed[line][end] = true;
            } else {
                rule(12, record, column, named(&layer.nodes, ends[end]).is_none())?;
                rule(13, record, column, !here[..slot].contains(entry))?;
            }
        }
    }
    Ok(())
}

/// Each line: its ends, its sides, and then its first and last point.
fn judge_lines(layer: &Layer, listed: &[[bool; 2]]) -> Kept {
    for (index, line) in layer.lines.iter().enumerate() {
        let mut nodes = [(0, 0); 2];
        for (end, column) in [(0, 18), (1, 24)] {
            let Some(node) = named(&layer.nodes, layer.ends[index][end]) else {
                return rule(11, line.record, column, false);
            };
            rule(14, line.record, column, listed[index][end])?;
            let linked = line.links[end] != 0;
            rule(12, line.record, column + 5, linked == on_frame(node.place.0, node.place.1))?;
            nodes[end] = node.place;
        }
        for (side, column) in [(1, 30), (0, 40)] {
            let area = layer.sides[index][side];
            if area != 0 {
                let Some(area) = named(&layer.areas, area) else {
                    return rule(11, line.record, column + 5, false);
                };
                rule(12, line.record, column, area.code == line.codes[side])?;
            }
        }
        let last = line.points as u32 - 1;
        rule(12, line.record + 1, 1, line.points_at[0] == nodes[0])?;
        rule(12, line.record + 1 + last / 7, 1 + 10 * (last % 7), line.points_at[1] == nodes[1])?;
    }
    Ok(())
}

/// The record and the column of a loop's entry.
fn slot(one: &Loop, index: usize) -> (u32, u32) {
    (one.record + (index / 12) as u32, 10 + 5 * (index % 12) as u32)
}

/// Loops. The measures of the layer's areas are put behind those before.
fn stage_5(layer: &Layer, marks: &mut Marks, measures: &mut Vec<i64>) -> Kept {
    marks.area.clear();
    marks.area.resize(layer.lines.len(), [0; 2]);
    let mut entries = &layer.entries[..];
    let mut loops = &layer.loops[..];
    for (serial, area) in (1..).zip(&layer.areas) {
        let (own, others) = loops.split_at(area.loops as usize);
        loops = others;
        let mut measure = 0;
        for (index, one) in own.iter().enumerate() {
            let (here, rest) = entries.split_at(one.count as usize);
            entries = rest;
            let loop_measure = measure_of(layer, here);
            rule(16, one.record, 1, if index == 0 { loop_measure > 0 } else { loop_measure < 0 })?;
            judge_entries(layer, serial, one, here, &mut marks.area)?;
            measure += loop_measure;
        }
        measures.push(measure);
    }
    Ok(())
}

/// +n adds line n's measure and -n takes it away.
fn measure_of(layer: &Layer, entries: &[i32]) -> i64 {
    let measure = |entry: &i32| {
        let (line, back) = place(*entry);
        let measure = layer.measures[line];
        if back == 0 {
            measure
        } else {
            -measure
        }
    };
    entries.iter().map(measure).sum()
}

/// Each entry of a loop: not twice in the area, from where the one before ends, with the area on its right.
fn judge_entries(layer: &Layer, serial: i32, one: &Loop, entries: &[i32], marks: &mut [[i32; 2]]) -> Kept {
    let (line, end) = place(entries[entries.len() - 1]);
    let mut at = layer.ends[line][1 - end];
    for (index, entry) in entries.iter().enumerate() {
        let (line, end) = place(*entry);
        let number = if marks[line][end] == serial {
            13
        } else if layer.ends[line][end] != at {
            15
        } else if layer.sides[line][end] != serial {
            17
        } else {
            marks[line][end] = serial;
            at = layer.ends[line][1 - end];
            continue;
        };
        let (record, column) = slot(one, index);
        return rule(number, record, column, false);
    }
    Ok(())
}

/// Every side that is an area stands in a loop of it.
fn stage_6(layer: &Layer, marks: &Marks) -> Kept {
    for (line, (sides, marks)) in layer.lines.iter().zip(layer.sides.iter().zip(&marks.area)) {
        rule(18, line.record, 35, sides[1] == 0 || sides[1] == marks[1])?;
        rule(18, line.record, 45, sides[0] == 0 || sides[0] == marks[0])?;
    }
    Ok(())
}

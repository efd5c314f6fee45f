//! What is due at each record, whatever the file holds (RULES 9.10).
//!
//! A pile holds what is still to come, the nearest on top. Each record takes its kind from the pile and lays there what it
//! announces. Records that announce nothing and follow at once, coordinates and the rest of a loop, are told in one run.
//! Where the pile is used up a mesh has ended, and an M is due.

use crate::fields::number;
use crate::layout::{a, h, l, layout, lp, m, Kind, MOST_RECORDS, RECORD};
use crate::walk::record;

/// So many things of a kind, one after another.
type Coming = (Kind, usize);

/// The kind that is due at each record that is looked at, and at the one behind the last of them.
pub fn dues(file: &[u8]) -> Vec<Kind> {
    let told = (file.len() / RECORD).min(MOST_RECORDS) + 1;
    let mut dues = Vec::with_capacity(told);
    let mut pile: Vec<Coming> = Vec::new();
    while dues.len() < told {
        let kind = taken(&mut pile);
        dues.push(kind);
        if dues.len() < told {
            let (kind, times) = announced(kind, record(file, dues.len()), &mut pile);
            dues.resize(told.min(dues.len() + times), kind);
        }
    }
    dues
}

/// One thing from the top of the pile.
fn taken(pile: &mut Vec<Coming>) -> Kind {
    while let Some((kind, times)) = pile.pop() {
        if times > 0 {
            pile.push((kind, times - 1));
            return kind;
        }
    }
    Kind::M
}

/// Lays on the pile what a record announces that was due as this kind. The answer is the run that follows it at once.
fn announced(kind: Kind, record: &[u8], pile: &mut Vec<Coming>) -> Coming {
    let size = |index: usize| sized(layout(kind).numbers[index].of(record));
    match kind {
        Kind::M => pile.push((Kind::H, size(m::LAYERS))),
        Kind::H => pile.extend([(Kind::A, size(h::AREAS)), (Kind::L, size(h::LINES)), (Kind::N, size(h::NODES))]),
        Kind::A => pile.push((Kind::Loop, size(a::LOOPS))),
        Kind::L => return (Kind::Coordinates, size(l::POINTS).div_ceil(7)),
        Kind::Loop => return (Kind::Loop, size(lp::COUNT).div_ceil(12).saturating_sub(1)),
        Kind::N | Kind::Coordinates => (),
    }
    (kind, 0)
}

/// A number that steers the walk: its size, 0 where it is ill formed.
fn sized(field: &[u8]) -> usize {
    number(field).map_or(0, |number| number.unsigned_abs() as usize)
}

/// The kind that is due at a record, by its number, or 0 for nothing.
pub fn due(file: &[u8], record: u32) -> u32 {
    told(&dues(file), record)
}

/// The answer for a record of a file whose dues are known.
pub fn told(dues: &[Kind], record: u32) -> u32 {
    (record as usize).checked_sub(1).and_then(|index| dues.get(index)).map_or(0, |kind| *kind as u32)
}

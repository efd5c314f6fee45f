//! Layer sums: the areas' measures and the outside sum of one layer, or of all layers.

use crate::judge::{area_measure, line_measure, verdict, whole, Outcome, Verdict};
use crate::records::Refusal;
use crate::walk::Layer;

#[derive(Clone, Copy, Debug, PartialEq, Eq, Default)]
pub struct Sums {
    pub areas: i64,
    pub outside: i64,
}

/// The sums of an accepted layer.
pub fn layer_sums(layer: &Layer) -> Sums {
    let areas = layer.areas.iter().map(|area| area_measure(layer, area)).sum();
    let mut outside = 0;
    for line in &layer.lines {
        match (line.left, line.right) {
            (0, 0) => (),
            (0, _) => outside += line_measure(line),
            (_, 0) => outside -= line_measure(line),
            _ => (),
        }
    }
    Sums { areas: whole(areas), outside: whole(outside) }
}

/// The answer for a layer, counted from 1. The table is lent, measures are not.
pub fn answer(verdict: &Verdict, words: usize, layer: u32) -> (Refusal, Sums) {
    let refusal = verdict.outcome(words, verdict.measures.len()).refusal;
    if refusal.number != 0 {
        return (refusal, Sums::default());
    }
    match (layer as usize).checked_sub(1).and_then(|index| verdict.sums.get(index)) {
        Some(sums) => (refusal, *sums),
        None => (Refusal { number: 22, record: 0, column: 0 }, Sums::default()),
    }
}

/// Judges a file, fills the table and gives the sums of a layer.
pub fn sums_of_layer(file: &[u8], table: &mut [u32], layer: u32) -> (Refusal, Sums) {
    let verdict = verdict(file);
    if verdict.table_stands(table.len()) {
        table[..verdict.table.len()].copy_from_slice(&verdict.table);
    }
    answer(&verdict, table.len(), layer)
}

/// The answer for all layers, with this much room, and the sums that then stand in the buffer: two a layer.
pub fn answer_for_all(verdict: &Verdict, words: usize, room: usize) -> (Outcome, Vec<i64>) {
    let outcome = verdict.outcome(words, verdict.measures.len());
    if outcome.refusal.number != 0 {
        return (outcome, Vec::new());
    }
    let sums: Vec<i64> = verdict.sums.iter().flat_map(|layer| [layer.areas, layer.outside]).collect();
    if room < sums.len() {
        let refusal = Refusal { number: 48, record: 0, column: 0 };
        return (Outcome { refusal, ..Outcome::default() }, Vec::new());
    }
    (outcome, sums)
}

/// Judges a file, fills the table and gives the sums of all layers.
pub fn sums_of_all(file: &[u8], table: &mut [u32], sums: &mut [i64]) -> Outcome {
    let verdict = verdict(file);
    if verdict.table_stands(table.len()) {
        table[..verdict.table.len()].copy_from_slice(&verdict.table);
    }
    let (outcome, found) = answer_for_all(&verdict, table.len(), sums.len());
    sums[..found.len()].copy_from_slice(&found);
    outcome
}

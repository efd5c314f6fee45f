//! A lean judge: the rules of docs/RULES.md, written for speed in ordinary safe Rust and without proofs.
//!
//! The file is walked once. Each field is decoded once. What the later stages ask of a layer is kept in lists, which the
//! next layer uses again. A layer is judged by stages 3 to 6 as soon as it has been walked over, while its lists are
//! near. The stages still answer in the order of RULES 6.1: of the refusals of several stages the earliest stage's counts.

mod fields;
mod reader;
mod stages;
mod walk;

pub use reader::read_record;

use second::judge::{Counts, Outcome};
use second::product::{Product, RawValue, Second};
use second::records::Refusal;
use second::sums::Sums;
use stages::Later;
use walk::{early, Judge, Layer, Mesh};

/// The words that the table needs: the sum of 5 + lines + areas over the layers. 0 if stage 1 or 2 refuses.
pub fn need(file: &[u8]) -> u64 {
    let mut need = Need(0);
    match early(file, &mut need) {
        Ok(_) => need.0,
        Err(_) => 0,
    }
}

/// Judges a file and fills the buffers.
pub fn judge(file: &[u8], table: &mut [u32], measures: &mut [i64]) -> Outcome {
    let mut full = Full::default();
    let refusal = match judged(file, table, &mut full) {
        Ok(()) if measures.len() < full.later.measures.len() => nowhere(19),
        Ok(()) => {
            measures[..full.later.measures.len()].copy_from_slice(&full.later.measures);
            return Outcome { counts: full.counts, ..Outcome::default() };
        }
        Err(refusal) => refusal,
    };
    let need = if refusal.number == 9 { full.need() } else { 0 };
    Outcome { refusal, need, ..Outcome::default() }
}

/// Judges a file, fills the table and gives the sums of one layer, counted from 1.
pub fn layer_sums(file: &[u8], table: &mut [u32], layer: u32) -> (Refusal, Sums) {
    let mut full = Full { summing: Summing::One(layer), ..Full::default() };
    match (judged(file, table, &mut full), full.sums.first()) {
        (Err(refusal), _) => (refusal, Sums::default()),
        (Ok(()), None) => (nowhere(22), Sums::default()),
        (Ok(()), Some(sums)) => (Refusal::default(), *sums),
    }
}

/// Judges a file, fills the table and gives the sums of all layers, two a layer.
pub fn all_sums(file: &[u8], table: &mut [u32], sums: &mut [i64]) -> Outcome {
    let mut full = Full { summing: Summing::All, ..Full::default() };
    let refusal = match judged(file, table, &mut full) {
        Ok(()) if sums.len() < 2 * full.sums.len() => nowhere(48),
        Ok(()) => {
            for (pair, found) in sums.chunks_exact_mut(2).zip(&full.sums) {
                pair.copy_from_slice(&[found.areas, found.outside]);
            }
            return Outcome { counts: full.counts, ..Outcome::default() };
        }
        Err(refusal) => refusal,
    };
    let need = if refusal.number == 9 { full.need() } else { 0 };
    Outcome { refusal, need, ..Outcome::default() }
}

/// All stages and the table: the first broken rule of 1 to 18.
fn judged(file: &[u8], table: &mut [u32], full: &mut Full) -> Result<(), Refusal> {
    full.counts.records = early(file, full)?;
    if (table.len() as u64) < full.need() {
        return Err(nowhere(9));
    }
    full.put_table(table);
    full.later.result()
}

/// A refusal that names no place.
fn nowhere(number: u32) -> Refusal {
    Refusal { number, record: 0, column: 0 }
}

/// What is kept of the whole file for the need.
struct Need(u64);

impl Judge for Need {
    fn layer(&mut self, layer: &Layer) {
        self.0 += 5 + layer.lines.len() as u64 + layer.areas.len() as u64;
    }

    fn mesh(&mut self, _: &Mesh) {}
}

/// What is kept of the whole file for the judge.
#[derive(Default)]
struct Full {
    counts: Counts,
    /// The three parts of the table: one row a layer, every line's L record, every area's A record.
    rows: Vec<u32>,
    lines: Vec<u32>,
    areas: Vec<u32>,
    later: Later,
    /// The layers whose sums are asked for, and their sums.
    summing: Summing,
    sums: Vec<Sums>,
}

/// The layers whose sums are asked for: none, the one with this number, or all.
#[derive(Default)]
enum Summing {
    #[default]
    None,
    One(u32),
    All,
}

impl Full {
    /// The words of all three parts.
    fn need(&self) -> u64 {
        (self.rows.len() + self.lines.len() + self.areas.len()) as u64
    }

    /// The table stands in its first words.
    fn put_table(&self, table: &mut [u32]) {
        let (rows, rest) = table.split_at_mut(self.rows.len());
        let (lines, rest) = rest.split_at_mut(self.lines.len());
        rows.copy_from_slice(&self.rows);
        lines.copy_from_slice(&self.lines);
        rest[..self.areas.len()].copy_from_slice(&self.areas);
    }
}

impl Judge for Full {
    fn layer(&mut self, layer: &Layer) {
        let [nodes, lines, areas] = layer.counts();
        self.counts.layers += 1;
        self.counts.nodes += nodes;
        self.counts.lines += lines;
        self.counts.areas += areas;
        self.rows.extend([layer.record, nodes, lines, areas, layer.letters]);
        self.lines.extend(layer.lines.iter().map(|line| line.record));
        self.areas.extend(layer.areas.iter().map(|area| area.record));
        let first = self.later.measures.len();
        self.later.layer(layer);
        let asked = match self.summing {
            Summing::None => false,
            Summing::One(number) => number == self.counts.layers,
            Summing::All => true,
        };
        if asked && self.later.result().is_ok() {
            self.sums.push(sums_of(layer, &self.later.measures[first..]));
        }
    }

    fn mesh(&mut self, mesh: &Mesh) {
        self.counts.meshes += 1;
        self.later.mesh(mesh);
    }
}

/// The two sums of a layer that keeps all rules.
fn sums_of(layer: &Layer, measures: &[i64]) -> Sums {
    let mut outside = 0;
    for (line, [right, left]) in layer.measures.iter().zip(&layer.sides) {
        match (left, right) {
            (0, 0) => (),
            (0, _) => outside += line,
            (_, 0) => outside -= line,
            _ => (),
        }
    }
    Sums { areas: measures.iter().sum(), outside }
}

/// The lean judge in the form in which programs are compared. What is due, positions and the writer are the second program's.
pub struct Lean;

impl Product for Lean {
    fn need(&self, file: &[u8]) -> u64 {
        need(file)
    }

    fn judge(&self, file: &[u8], table: &mut [u32], measures: &mut [i64]) -> Outcome {
        judge(file, table, measures)
    }

    fn layer_sums(&self, file: &[u8], table: &mut [u32], layer: u32) -> (Refusal, Sums) {
        layer_sums(file, table, layer)
    }

    fn all_sums(&self, file: &[u8], table: &mut [u32], sums: &mut [i64]) -> Outcome {
        all_sums(file, table, sums)
    }

    fn due(&self, file: &[u8], record: u32) -> u32 {
        Second.due(file, record)
    }

    fn position(&self, mesh: i32, x: i32, y: i32) -> (u32, f64, f64) {
        Second.position(mesh, x, y)
    }

    fn read_record(&self, kind: u32, bytes: &[u8]) -> (Refusal, RawValue) {
        read_record(kind, bytes)
    }

    fn write_record(&self, value: RawValue, buffer: &mut [u8]) -> u32 {
        Second.write_record(value, buffer)
    }
}

//! The calls that are compared: those of the program under comparison, and our own in the same form.

use crate::due::due;
use crate::judge::{judge, verdict, Outcome};
use crate::layout::{Kind, KINDS};
use crate::positions::position;
use crate::records::{self, read, Refusal, Value};
use crate::sums::{sums_of_all, sums_of_layer, Sums};
use std::fmt::{Display, Formatter};

/// A record value as it goes over the border between programs: the kind is a number, 1 to 7.
#[derive(Clone, Copy, Debug, PartialEq, Eq)]
pub struct RawValue {
    pub kind: u32,
    pub numbers: [i32; 16],
    pub name: [u8; 40],
    pub marks: [u32; 2],
    pub letters: u32,
}

impl From<Value> for RawValue {
    fn from(value: Value) -> RawValue {
        let Value { kind, numbers, name, marks, letters } = value;
        RawValue { kind: kind as u32, numbers, name, marks, letters }
    }
}

pub trait Product: Sync {
    fn need(&self, file: &[u8]) -> u64;
    fn judge(&self, file: &[u8], table: &mut [u32], measures: &mut [i64]) -> Outcome;
    fn layer_sums(&self, file: &[u8], table: &mut [u32], layer: u32) -> (Refusal, Sums);
    fn all_sums(&self, file: &[u8], table: &mut [u32], sums: &mut [i64]) -> Outcome;
    /// The kind that is due at a record, 1 to 7, or 0.
    fn due(&self, file: &[u8], record: u32) -> u32;
    fn position(&self, mesh: i32, x: i32, y: i32) -> (u32, f64, f64);
    fn read_record(&self, kind: u32, bytes: &[u8]) -> (Refusal, RawValue);
    fn write_record(&self, value: RawValue, buffer: &mut [u8]) -> u32;
}

/// A call with what it is given. Need, judge, both sums and due are about a file that was named before.
#[derive(Clone, Debug)]
pub enum Call {
    Need,
    Judge { words: usize, areas: usize },
    Sums { words: usize, layer: u32 },
    AllSums { words: usize, room: usize },
    Due { record: u32 },
    Position { mesh: i32, x: i32, y: i32 },
    Read { kind: u32, bytes: Vec<u8> },
    Write { value: RawValue, length: usize },
}

impl Display for Call {
    fn fmt(&self, to: &mut Formatter) -> std::fmt::Result {
        match self {
            Call::Need => write!(to, "need"),
            Call::Judge { words, areas } => write!(to, "judge, table of {words} words, {areas} measures"),
            Call::Sums { words, layer } => write!(to, "sums of layer {layer}, table of {words} words"),
            Call::AllSums { words, room } => write!(to, "sums of all layers, table of {words} words, room for {room} sums"),
            Call::Due { record } => write!(to, "due at record {record}"),
            Call::Position { mesh, x, y } => write!(to, "position {mesh} {x} {y}, degrees as bits"),
            Call::Read { kind: number, .. } => write!(to, "record of kind {:?}, read", kind(*number)),
            Call::Write { value, length } => write!(to, "{value:?}, written to {length} bytes"),
        }
    }
}

/// What a call tells.
#[derive(Clone, Copy, Debug, PartialEq, Eq)]
pub enum Told {
    Need(u64),
    Outcome(Outcome),
    Sums(Refusal, Sums),
    Due(u32),
    /// The degrees as bits.
    Place(u32, u64, u64),
    Reading(Refusal, RawValue),
    Number(u32),
}

/// The lent buffers of a call, each longer than what is lent. A call has no more than it takes.
#[derive(Clone, Debug, Default, PartialEq, Eq)]
pub struct Buffers {
    pub table: Vec<u32>,
    pub measures: Vec<i64>,
    pub sums: Vec<i64>,
    pub bytes: Vec<u8>,
}

/// What a call tells, and the buffers afterwards.
#[derive(Clone, Debug, PartialEq, Eq)]
pub struct Answer {
    pub told: Told,
    pub buffers: Buffers,
}

/// How much longer a buffer is than what is lent.
const SPARE: usize = 2;

impl Call {
    /// The buffers before the call: they hold a pattern.
    pub fn buffers(&self) -> Buffers {
        let table = |words| (0..words + SPARE).map(|index| 0xA5A5_0000 ^ index as u32).collect();
        let longs = |places| (0..places + SPARE).map(|index| -0x5A5A_5A5A_0000_0000 ^ index as i64).collect();
        let bytes = |length| (0..length + SPARE).map(|index| 0xC3 ^ index as u8).collect();
        match *self {
            Call::Judge { words, areas } => {
                Buffers { table: table(words), measures: longs(areas), ..Buffers::default() }
            }
            Call::Sums { words, .. } => Buffers { table: table(words), ..Buffers::default() },
            Call::AllSums { words, room } => Buffers { table: table(words), sums: longs(room), ..Buffers::default() },
            Call::Write { length, .. } => Buffers { bytes: bytes(length), ..Buffers::default() },
            Call::Need | Call::Due { .. } | Call::Position { .. } | Call::Read { .. } => Buffers::default(),
        }
    }

    /// The answer of a program that can be called.
    pub fn answer(&self, product: &dyn Product, file: &[u8]) -> Answer {
        let mut buffers = self.buffers();
        let Buffers { table, measures, sums: all, bytes: buffer } = &mut buffers;
        let told = match *self {
            Call::Need => Told::Need(product.need(file)),
            Call::Judge { words, areas } => {
                Told::Outcome(product.judge(file, &mut table[..words], &mut measures[..areas]))
            }
            Call::Sums { words, layer } => {
                let (refusal, sums) = product.layer_sums(file, &mut table[..words], layer);
                Told::Sums(refusal, sums)
            }
            Call::AllSums { words, room } => {
                Told::Outcome(product.all_sums(file, &mut table[..words], &mut all[..room]))
            }
            Call::Due { record } => Told::Due(product.due(file, record)),
            Call::Position { mesh, x, y } => {
                let (number, latitude, longitude) = product.position(mesh, x, y);
                Told::Place(number, latitude.to_bits(), longitude.to_bits())
            }
            Call::Read { kind, ref bytes } => {
                let (refusal, value) = product.read_record(kind, bytes);
                Told::Reading(refusal, value)
            }
            Call::Write { value, length } => Told::Number(product.write_record(value, &mut buffer[..length])),
        };
        Answer { told, buffers }
    }
}

impl Told {
    /// The refusal's number, or 0.
    pub fn number(&self) -> u32 {
        match *self {
            Told::Need(_) | Told::Due(_) => 0,
            Told::Outcome(outcome) => outcome.refusal.number,
            Told::Sums(refusal, _) | Told::Reading(refusal, _) => refusal.number,
            Told::Place(number, ..) | Told::Number(number) => number,
        }
    }
}

/// This program.
pub struct Second;

fn kind(number: u32) -> Kind {
    KINDS[number as usize - 1]
}

impl Product for Second {
    fn need(&self, file: &[u8]) -> u64 {
        verdict(file).need()
    }

    fn judge(&self, file: &[u8], table: &mut [u32], measures: &mut [i64]) -> Outcome {
        judge(file, table, measures)
    }

    fn layer_sums(&self, file: &[u8], table: &mut [u32], layer: u32) -> (Refusal, Sums) {
        sums_of_layer(file, table, layer)
    }

    fn all_sums(&self, file: &[u8], table: &mut [u32], sums: &mut [i64]) -> Outcome {
        sums_of_all(file, table, sums)
    }

    fn due(&self, file: &[u8], record: u32) -> u32 {
        due(file, record)
    }

    fn position(&self, mesh: i32, x: i32, y: i32) -> (u32, f64, f64) {
        match position(mesh, x, y) {
            Ok((latitude, longitude)) => (0, latitude, longitude),
            Err(number) => (number, 0.0, 0.0),
        }
    }

    fn read_record(&self, number: u32, bytes: &[u8]) -> (Refusal, RawValue) {
        match read(kind(number), bytes) {
            Ok(value) => (Refusal::default(), value.into()),
            Err(refusal) => (refusal, Value::empty(kind(number)).into()),
        }
    }

    fn write_record(&self, value: RawValue, buffer: &mut [u8]) -> u32 {
        let RawValue { kind: number, numbers, name, marks, letters } = value;
        records::write(&Value { kind: kind(number), numbers, name, marks, letters }, buffer)
    }
}

//! The proved library, linked as a C library. include/stragumella.h is the authority for these calls.

use crate::judge::{Counts, Outcome};
use crate::product::{Product, RawValue};
use crate::records::Refusal;
use crate::sums::Sums;

#[repr(C)]
struct CallOutcome {
    number: u32,
    record: u32,
    column: u32,
    meshes: u32,
    layers: u32,
    nodes: u32,
    lines: u32,
    areas: u32,
    records: u32,
    need: u64,
}

#[repr(C)]
struct CallSums {
    number: u32,
    record: u32,
    column: u32,
    areas: i64,
    outside: i64,
}

#[repr(C)]
struct CallPlace {
    number: u32,
    latitude: f64,
    longitude: f64,
}

#[repr(C)]
struct CallRecord {
    kind: u32,
    numbers: [i32; 16],
    name: [u8; 40],
    marks: [u32; 2],
    letters: u32,
}

#[repr(C)]
struct CallReading {
    number: u32,
    record: u32,
    column: u32,
    value: CallRecord,
}

extern "C" {
    fn stragumella_need(file: *const u8, length: usize) -> u64;
    fn stragumella_judge(
        file: *const u8,
        length: usize,
        table: *mut u32,
        words: usize,
        measures: *mut i64,
        areas: usize,
    ) -> CallOutcome;
    fn stragumella_layer_sums(
        file: *const u8,
        length: usize,
        table: *mut u32,
        words: usize,
        layer: u32,
    ) -> CallSums;
    fn stragumella_all_sums(
        file: *const u8,
        length: usize,
        table: *mut u32,
        words: usize,
        sums: *mut i64,
        room: usize,
    ) -> CallOutcome;
    fn stragumella_due(file: *const u8, length: usize, record: u32) -> u32;
    fn stragumella_position(mesh: i32, x: i32, y: i32) -> CallPlace;
    fn stragumella_read_record(kind: u32, bytes: *const u8, length: usize) -> CallReading;
    fn stragumella_write_record(value: CallRecord, buffer: *mut u8, length: usize) -> u32;
}

impl From<CallOutcome> for Outcome {
    fn from(told: CallOutcome) -> Outcome {
        Outcome {
            refusal: Refusal { number: told.number, record: told.record, column: told.column },
            counts: Counts {
                meshes: told.meshes,
                layers: told.layers,
                nodes: told.nodes,
                lines: told.lines,
                areas: told.areas,
                records: told.records,
            },
            need: told.need,
        }
    }
}

pub struct Proved;

// Each call lends slices that live until it returns.
impl Product for Proved {
    fn need(&self, file: &[u8]) -> u64 {
        unsafe { stragumella_need(file.as_ptr(), file.len()) }
    }

    fn judge(&self, file: &[u8], table: &mut [u32], measures: &mut [i64]) -> Outcome {
        let (words, areas) = (table.len(), measures.len());
        let (table, measures) = (table.as_mut_ptr(), measures.as_mut_ptr());
        unsafe { stragumella_judge(file.as_ptr(), file.len(), table, words, measures, areas) }.into()
    }

    fn layer_sums(&self, file: &[u8], table: &mut [u32], layer: u32) -> (Refusal, Sums) {
        let words = table.len();
        let told =
            unsafe { stragumella_layer_sums(file.as_ptr(), file.len(), table.as_mut_ptr(), words, layer) };
        let refusal = Refusal { number: told.number, record: told.record, column: told.column };
        (refusal, Sums { areas: told.areas, outside: told.outside })
    }

    fn all_sums(&self, file: &[u8], table: &mut [u32], sums: &mut [i64]) -> Outcome {
        let (words, room) = (table.len(), sums.len());
        let (table, sums) = (table.as_mut_ptr(), sums.as_mut_ptr());
        unsafe { stragumella_all_sums(file.as_ptr(), file.len(), table, words, sums, room) }.into()
    }

    fn due(&self, file: &[u8], record: u32) -> u32 {
        unsafe { stragumella_due(file.as_ptr(), file.len(), record) }
    }

    fn position(&self, mesh: i32, x: i32, y: i32) -> (u32, f64, f64) {
        let told = unsafe { stragumella_position(mesh, x, y) };
        (told.number, told.latitude, told.longitude)
    }

    fn read_record(&self, kind: u32, bytes: &[u8]) -> (Refusal, RawValue) {
        let told = unsafe { stragumella_read_record(kind, bytes.as_ptr(), bytes.len()) };
        let CallRecord { kind, numbers, name, marks, letters } = told.value;
        let refusal = Refusal { number: told.number, record: told.record, column: told.column };
        (refusal, RawValue { kind, numbers, name, marks, letters })
    }

    fn write_record(&self, value: RawValue, buffer: &mut [u8]) -> u32 {
        let RawValue { kind, numbers, name, marks, letters } = value;
        let value = CallRecord { kind, numbers, name, marks, letters };
        unsafe { stragumella_write_record(value, buffer.as_mut_ptr(), buffer.len()) }
    }
}

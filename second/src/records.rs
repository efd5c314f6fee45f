//! One record: read and written by its kind.

use crate::fields::{code, code_spelled, is_blank, is_name, number, spelled};
use crate::layout::{layout, letters_spelled, Field, Kind, Sort, LAYER, RECORD};

/// A refusal and its place. Number 0 at 0, 0 is acceptance.
#[derive(Clone, Copy, Debug, PartialEq, Eq, Default)]
pub struct Refusal {
    pub number: u32,
    pub record: u32,
    pub column: u32,
}

/// Every broken rule is told here. The least counts: by record, then column, then number.
#[derive(Clone, Debug, Default)]
pub struct Broken {
    least: Option<(u32, u32, u32)>,
}

impl Broken {
    pub fn rule(&mut self, number: u32, record: u32, column: u32) {
        let told = (record, column, number);
        self.least = Some(self.least.map_or(told, |least| least.min(told)));
    }

    pub fn none(&self) -> bool {
        self.least.is_none()
    }

    pub fn result(&self) -> Result<(), Refusal> {
        match self.least {
            None => Ok(()),
            Some((record, column, number)) => Err(Refusal { number, record, column }),
        }
    }
}

/// A record's value. Entries that the kind lacks are 0.
#[derive(Clone, Copy, Debug, PartialEq, Eq)]
pub struct Value {
    pub kind: Kind,
    pub numbers: [i32; 16],
    pub name: [u8; 40],
    /// The marks of the codes in column order.
    pub marks: [u32; 2],
    /// The letters of an H: 1 for H1, 2 for H2.
    pub letters: u32,
}

impl Value {
    pub fn empty(kind: Kind) -> Value {
        Value { kind, numbers: [0; 16], name: [0; 40], marks: [0; 2], letters: 0 }
    }
}

/// The first wrong column of a record's line end.
pub fn wrong_line_end(record: &[u8]) -> Option<u32> {
    match (record[72], record[73]) {
        (0x0D, 0x0A) => None,
        (0x0D, _) => Some(74),
        _ => Some(73),
    }
}

/// The letters that a record of a kind has in its value, or None if it begins with other ones.
/// We guess them and compare the spelling.
pub fn letters(kind: Kind, record: &[u8]) -> Option<u32> {
    let is_spelled = |letters: &u32| letters_spelled(kind, *letters).is_some_and(|spelling| record.starts_with(spelling));
    (0..=2).find(is_spelled)
}

/// What a number field of a record holds, a code or another, and its mark, or None if the field is ill formed.
/// A number that is no code has mark 0.
pub fn held(field: &Field, record: &[u8]) -> Option<(i32, u32)> {
    match field.sort {
        Sort::Code => code(field.of(record), number(LAYER.of(record))),
        _ => number(field.of(record)).map(|number| (number, 0)),
    }
}

/// A field is well formed by its sort.
pub fn well_formed(field: &Field, record: &[u8]) -> bool {
    match field.sort {
        Sort::Number | Sort::Code => held(field, record).is_some(),
        Sort::Name => is_name(field.of(record)),
        Sort::Blank => is_blank(field.of(record)),
    }
}

/// Reads a single record of a named kind.
pub fn read(kind: Kind, bytes: &[u8]) -> Result<Value, Refusal> {
    let refused = |number, column| Err(Refusal { number, record: 1, column });
    if bytes.len() != RECORD {
        return refused(1, 1);
    }
    if let Some(column) = wrong_line_end(bytes) {
        return refused(2, column);
    }
    let Some(letters) = letters(kind, bytes) else {
        return refused(3, 1);
    };
    let ill_formed = layout(kind).fields.iter().filter(|field| !well_formed(field, bytes));
    if let Some(column) = ill_formed.map(|field| field.start).min() {
        return refused(5, column as u32);
    }
    Ok(Value { letters, ..value_of(kind, bytes) })
}

/// The value of a well-formed record, without its letters.
fn value_of(kind: Kind, record: &[u8]) -> Value {
    let mut value = Value::empty(kind);
    let mut marks = value.marks.iter_mut();
    for (index, field) in layout(kind).numbers.iter().enumerate() {
        let (number, mark) = held(field, record).expect("a well-formed number");
        value.numbers[index] = number;
        if field.sort == Sort::Code {
            *marks.next().expect("a record has at most two codes") = mark;
        }
    }
    if let Some(field) = layout(kind).name {
        value.name[..field.width()].copy_from_slice(field.of(record));
    }
    value
}

/// The 74 bytes of a value, or None if the value or an unused entry does not fit.
pub fn bytes_of(value: &Value) -> Option<[u8; RECORD]> {
    let layout = layout(value.kind);
    let mut record = [b' '; RECORD];
    record[72] = 0x0D;
    record[73] = 0x0A;
    let letters = letters_spelled(value.kind, value.letters)?;
    record[..letters.len()].copy_from_slice(letters);
    let mut marks = value.marks.into_iter();
    for (field, number) in layout.numbers.iter().zip(value.numbers) {
        let spelling = match field.sort {
            Sort::Code => code_spelled(number, marks.next()?, Some(value.numbers[0]))?,
            _ => spelled(number, field.width())?,
        };
        record[field.start - 1..field.end].copy_from_slice(&spelling[..field.width()]);
    }
    let name_width = layout.name.map_or(0, |field| field.width());
    if let Some(field) = layout.name {
        if !is_name(&value.name[..name_width]) {
            return None;
        }
        record[field.start - 1..field.end].copy_from_slice(&value.name[..name_width]);
    }
    let unused_numbers = &value.numbers[layout.numbers.len()..];
    let unused_name = &value.name[name_width..];
    let unused_fit = unused_numbers.iter().all(|n| *n == 0) && unused_name.iter().all(|b| *b == 0);
    (unused_fit && marks.all(|mark| mark == 0)).then_some(record)
}

/// Writes a record. The answer is 0, 21 (short buffer) or 20 (does not fit).
pub fn write(value: &Value, buffer: &mut [u8]) -> u32 {
    if buffer.len() < RECORD {
        return 21;
    }
    match bytes_of(value) {
        None => 20,
        Some(record) => {
            buffer[..RECORD].copy_from_slice(&record);
            0
        }
    }
}

//! One record, read by the kind that the caller names.

use super::fields::{blank, code, head_letters, letters, name, number, rule, Kept, Record, RECORD};
use second::product::RawValue;
use second::records::Refusal;

/// Reads a single record. Refused, its value is the named kind with all else 0.
pub fn read_record(kind: u32, bytes: &[u8]) -> (Refusal, RawValue) {
    let empty = RawValue { kind, numbers: [0; 16], name: [0; 40], marks: [0; 2], letters: 0 };
    let refused = |number, column| (Refusal { number, record: 1, column }, empty);
    let Ok(record) = <&Record>::try_from(bytes) else {
        return refused(1, 1);
    };
    match (record[RECORD - 2], record[RECORD - 1]) {
        (b'\r', b'\n') => (),
        (b'\r', _) => return refused(2, 74),
        _ => return refused(2, 73),
    }
    let mut value = empty;
    match fill(&mut value, record) {
        Ok(()) => (Refusal::default(), value),
        Err(fault) => refused(fault.number, fault.column),
    }
}

/// The letters of an H, and the numbers, the name and the marks of a record, in column order.
fn fill(value: &mut RawValue, record: &Record) -> Kept<()> {
    let mut numbers = Numbers { numbers: &mut value.numbers, next: 0, marks: &mut value.marks, next_mark: 0, record };
    match value.kind {
        1 => {
            letters(record, b"M ")?;
            numbers.read([(3, 8)])?;
            name(record, 9, 28)?;
            value.name[..20].copy_from_slice(&record[8..28]);
            numbers.read([(29, 31), (32, 36), (37, 41), (42, 46), (47, 51), (52, 56)])?;
            blank(record, 57, 72)
        }
        2 => {
            value.letters = head_letters(record)?;
            numbers.read([(3, 4), (5, 9), (10, 14), (15, 19), (20, 24), (25, 29)])?;
            blank(record, 30, 30)?;
            numbers.read([(31, 34)])?;
            blank(record, 35, 35)?;
            numbers.read([(36, 39)])?;
            blank(record, 40, 72)
        }
        3 => {
            letters(record, b"N ")?;
            numbers.read([(3, 4), (5, 6), (7, 11), (12, 16), (17, 21), (22, 23), (24, 25)])?;
            numbers.slots::<9>(26)?;
            blank(record, 71, 72)
        }
        4 => {
            letters(record, b"L ")?;
            numbers.read([(3, 4), (5, 6), (7, 11), (12, 17), (18, 22), (23, 23), (24, 28), (29, 29)])?;
            numbers.code(30)?;
            numbers.read([(35, 39)])?;
            numbers.code(40)?;
            numbers.read([(45, 49), (50, 55), (56, 57), (58, 60)])?;
            blank(record, 61, 72)
        }
        5 => {
            numbers.slots::<14>(1)?;
            blank(record, 71, 72)
        }
        6 => {
            letters(record, b"A ")?;
            numbers.read([(3, 4)])?;
            numbers.code(5)?;
            numbers.read([(10, 14), (15, 19), (20, 24), (25, 28), (29, 32)])?;
            name(record, 33, 72)?;
            value.name.copy_from_slice(&record[32..72]);
            Ok(())
        }
        7 => {
            numbers.read([(1, 5), (6, 9)])?;
            numbers.slots::<12>(10)?;
            blank(record, 70, 72)
        }
        _ => rule(3, 1, false),
    }
}

/// The numbers and the marks of a value, filled one after another.
struct Numbers<'a> {
    numbers: &'a mut [i32; 16],
    next: usize,
    marks: &'a mut [u32; 2],
    next_mark: usize,
    record: &'a Record,
}

impl Numbers<'_> {
    /// The numbers of these fields.
    #[inline(always)]
    fn read<const COUNT: usize>(&mut self, fields: [(usize, usize); COUNT]) -> Kept<()> {
        for (start, end) in fields {
            self.numbers[self.next] = number(self.record, start, end)?;
            self.next += 1;
        }
        Ok(())
    }

    /// The code that starts at a column, with its mark.
    #[inline(always)]
    fn code(&mut self, start: usize) -> Kept<()> {
        let (code, mark) = code(self.record, start)?;
        self.numbers[self.next] = code;
        self.marks[self.next_mark] = mark;
        self.next += 1;
        self.next_mark += 1;
        Ok(())
    }

    /// Slots of width 5, from a column on.
    #[inline(always)]
    fn slots<const COUNT: usize>(&mut self, first: usize) -> Kept<()> {
        self.read::<COUNT>(std::array::from_fn(|slot| (first + 5 * slot, first + 5 * slot + 4)))
    }
}

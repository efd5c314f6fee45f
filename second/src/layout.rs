//! The layouts of the seven kinds of record.

use std::sync::OnceLock;

/// A record has 74 bytes.
pub const RECORD: usize = 74;

/// A file has at most so many records.
pub const MOST_RECORDS: usize = 6_399_936;

#[derive(Clone, Copy, Debug, PartialEq, Eq, PartialOrd, Ord, Hash)]
pub enum Kind {
    M = 1,
    H = 2,
    N = 3,
    L = 4,
    Coordinates = 5,
    A = 6,
    Loop = 7,
}

pub const KINDS: [Kind; 7] =
    [Kind::M, Kind::H, Kind::N, Kind::L, Kind::Coordinates, Kind::A, Kind::Loop];

#[derive(Clone, Copy, Debug, PartialEq, Eq)]
pub enum Sort {
    Number,
    /// A number for which land has a spelling of its own.
    Code,
    Name,
    Blank,
}

/// A field: its sort, its first and its last column. Columns count from 1.
#[derive(Clone, Copy, Debug, PartialEq, Eq)]
pub struct Field {
    pub sort: Sort,
    pub start: usize,
    pub end: usize,
}

impl Field {
    pub fn width(&self) -> usize {
        self.end - self.start + 1
    }

    pub fn of<'a>(&self, record: &'a [u8]) -> &'a [u8] {
        &record[self.start - 1..self.end]
    }
}

/// The letters of an H's value: H1 heads an unstructured layer, H2 a structured one.
pub const UNSTRUCTURED: u32 = 1;
pub const STRUCTURED: u32 = 2;

/// What a record of a kind begins with, by the letters of its value. A kind without letters begins with nothing.
/// None if the kind's value has no such letters.
pub fn letters_spelled(kind: Kind, letters: u32) -> Option<&'static [u8]> {
    match (kind, letters) {
        (Kind::M, 0) => Some(b"M "),
        (Kind::H, UNSTRUCTURED) => Some(b"H1"),
        (Kind::H, STRUCTURED) => Some(b"H2"),
        (Kind::N, 0) => Some(b"N "),
        (Kind::L, 0) => Some(b"L "),
        (Kind::A, 0) => Some(b"A "),
        (Kind::Coordinates | Kind::Loop, 0) => Some(b""),
        _ => None,
    }
}

pub struct Layout {
    /// All fields in column order.
    pub fields: Vec<Field>,
    /// The number fields in column order, codes among them.
    pub numbers: Vec<Field>,
    /// The name field, if the kind has one.
    pub name: Option<Field>,
}

impl Layout {
    /// The first column of the number field with this index, counted from 0.
    pub fn column(&self, index: usize) -> u32 {
        self.numbers[index].start as u32
    }
}

/// The layout of a kind.
pub fn layout(kind: Kind) -> &'static Layout {
    static LAYOUTS: OnceLock<Vec<Layout>> = OnceLock::new();
    &LAYOUTS.get_or_init(|| KINDS.iter().map(|kind| made(*kind)).collect())[kind as usize - 1]
}

fn made(kind: Kind) -> Layout {
    let (name, numbers) = named(kind);
    let number = |(start, end): &(usize, usize)| Field { sort: Sort::Number, start: *start, end: *end };
    let mut numbers: Vec<Field> = numbers.iter().map(number).collect();
    codes(kind).iter().for_each(|index| numbers[*index].sort = Sort::Code);
    let name = name.map(|(start, end)| Field { sort: Sort::Name, start, end });
    let mut fields = numbers.clone();
    fields.extend(name);
    fields.extend(blanks(&fields));
    fields.sort_by_key(|field| field.start);
    Layout { fields, numbers, name }
}

/// Each run of columns up to 72 that is not named is one blank field. Columns 1 and 2 hold letters or part of a number.
fn blanks(named: &[Field]) -> Vec<Field> {
    let is_named = |column: usize| named.iter().any(|f| f.start <= column && column <= f.end);
    let mut found: Vec<Field> = Vec::new();
    for column in (3..=72).filter(|column| !is_named(*column)) {
        match found.last_mut() {
            Some(last) if last.end + 1 == column => last.end = column,
            _ => found.push(Field { sort: Sort::Blank, start: column, end: column }),
        }
    }
    found
}

type Columns = (usize, usize);

/// Name columns and number columns, as the tables of RULES 4 have them.
fn named(kind: Kind) -> (Option<Columns>, Vec<Columns>) {
    match kind {
        Kind::M => (Some((9, 28)), vec![(3, 8), (29, 31), (32, 36), (37, 41), (42, 46), (47, 51), (52, 56)]),
        Kind::H => (None, vec![(3, 4), (5, 9), (10, 14), (15, 19), (20, 24), (25, 29), (31, 34), (36, 39)]),
        Kind::N => {
            (None, with_slots(vec![(3, 4), (5, 6), (7, 11), (12, 16), (17, 21), (22, 23), (24, 25)], 26, 9))
        }
        Kind::L => (
            None,
            vec![
                (3, 4), (5, 6), (7, 11), (12, 17), (18, 22), (23, 23), (24, 28), (29, 29), (30, 34),
                (35, 39), (40, 44), (45, 49), (50, 55), (56, 57), (58, 60),
            ],
        ),
        Kind::Coordinates => (None, with_slots(vec![], 1, 14)),
        Kind::A => (Some((33, 72)), vec![(3, 4), (5, 9), (10, 14), (15, 19), (20, 24), (25, 28), (29, 32)]),
        Kind::Loop => (None, with_slots(vec![(1, 5), (6, 9)], 10, 12)),
    }
}

/// The number fields of a kind that are codes, in column order. A kind that has codes has a layer code too.
pub fn codes(kind: Kind) -> &'static [usize] {
    match kind {
        Kind::L => &[l::LEFT_CODE, l::RIGHT_CODE],
        Kind::A => &[a::CODE],
        _ => &[],
    }
}

/// The records total of a kind that bears one.
pub fn records_total(kind: Kind) -> Option<Field> {
    match kind {
        Kind::M => Some(layout(kind).numbers[m::RECORDS]),
        Kind::H => Some(layout(kind).numbers[h::RECORDS]),
        _ => None,
    }
}

/// The layer code of a kind that has codes: its first number.
pub const LAYER: Field = Field { sort: Sort::Number, start: 3, end: 4 };

/// Adds slots of width 5, from a column on.
fn with_slots(mut columns: Vec<Columns>, first: usize, count: usize) -> Vec<Columns> {
    columns.extend((0..count).map(|slot| (first + 5 * slot, first + 5 * slot + 4)));
    columns
}

// The index of each number field of each kind, counted from 0.

pub mod m {
    pub const MESH: usize = 0;
    pub const LAYERS: usize = 1;
    pub const NODES: usize = 2;
    pub const LINES: usize = 3;
    pub const AREAS: usize = 4;
    pub const POINTS: usize = 5;
    pub const RECORDS: usize = 6;
}

pub mod h {
    pub const LAYER: usize = 0;
    pub const NODES: usize = 1;
    pub const LINES: usize = 2;
    pub const AREAS: usize = 3;
    pub const POINTS: usize = 4;
    pub const RECORDS: usize = 5;
    pub const FIRST_MADE: usize = 6;
    pub const LAST_CHANGED: usize = 7;
}

pub mod n {
    pub const LAYER: usize = 0;
    pub const ITEM: usize = 1;
    pub const SERIAL: usize = 2;
    pub const X: usize = 3;
    pub const Y: usize = 4;
    pub const FRAME: usize = 5;
    pub const COUNT: usize = 6;
    pub const SLOTS: usize = 7;
}

pub mod l {
    pub const LAYER: usize = 0;
    pub const ITEM: usize = 1;
    pub const SERIAL: usize = 2;
    pub const KIND: usize = 3;
    pub const START: usize = 4;
    pub const START_LINK: usize = 5;
    pub const END: usize = 6;
    pub const END_LINK: usize = 7;
    pub const LEFT_CODE: usize = 8;
    pub const LEFT_AREA: usize = 9;
    pub const RIGHT_CODE: usize = 10;
    pub const RIGHT_AREA: usize = 11;
    pub const POINTS: usize = 12;
    pub const ATTRIBUTES: usize = 13;
    pub const INNER_ATTRIBUTES: usize = 14;
}

pub mod a {
    pub const LAYER: usize = 0;
    pub const CODE: usize = 1;
    pub const SERIAL: usize = 2;
    pub const X: usize = 3;
    pub const Y: usize = 4;
    pub const LOOPS: usize = 5;
    pub const LINES: usize = 6;
}

pub mod lp {
    pub const SERIAL: usize = 0;
    pub const COUNT: usize = 1;
    pub const SLOTS: usize = 2;
}

//! The comparison's part about number fields: every text over an alphabet, in single records and in files (RULES 3.1, 3.2).
//!
//! What has to become of a text is told here a third time, beside the two programs: it is read off the text from the left to the
//! right, and how many texts have to be taken is counted by a formula. So it shows too where both programs are wrong alike.

use crate::compare::{Agreed, Compare, Disagreement};
use crate::damage::set;
use crate::fields::LAND;
use crate::judge::verdict;
use crate::layout::{a, codes, h, l, layout, lp, m, n, Field, Kind, Sort, RECORD};
use crate::product::RawValue;
use crate::records::{read, Refusal, Value};
use crate::sheet::{joined, land_s, sheet_s, End, Line, Node, Records, Sheet};

/// Number fields have 1 to so many columns.
pub const WIDEST: usize = 6;

/// What can become of a text. The first two are taken, the others say why it is refused.
#[derive(Clone, Copy, Debug, PartialEq, Eq)]
pub enum Became {
    WithoutSign,
    WithSign,
    SpacesAlone,
    SignAlone,
    LeadingZero,
    MinusZero,
    ZeroBehindSign,
    SpaceBehindSign,
    TwoSigns,
    SignBehindDigits,
    SpaceBetweenDigits,
    SpacesBehindDigits,
    PlusSign,
    Tab,
    Slash,
    Colon,
    OtherByte,
}

/// The same in words, and the least width in which it can become of a text.
pub const TEXTS_BECAME: [(&str, usize); 17] = [
    ("taken without a sign", 1), ("with a minus sign", 2), ("refused for spaces alone", 1), ("a sign alone", 1),
    ("a leading zero", 2), ("\"-0\"", 2), ("a zero behind the sign", 3), ("a space behind the sign", 2), ("two signs", 2),
    ("a sign behind digits", 2), ("a space between digits", 3), ("spaces behind the digits", 2), ("a plus sign", 2),
    ("a tab for a space", 2), ("\"/\" for a digit", 1), ("\":\" for a digit", 1), ("another byte", 1),
];

/// What a text spells: a number, or why it spells none.
pub type Spelled = Result<i32, Became>;

/// What a text spells by RULES 3.1, read from the left: spaces, a minus sign or none, digits up to the right end.
pub fn read_off(text: &[u8]) -> Spelled {
    let blanks = text.iter().take_while(|byte| **byte == b' ').count();
    let bare = &text[blanks..];
    match bare {
        [] => Err(Became::SpacesAlone),
        [b'-'] => Err(Became::SignAlone),
        [b'0'] => Ok(0),
        [b'1'..=b'9', ..] if digits(bare) => Ok(value(bare)),
        [b'-', b'1'..=b'9', ..] if digits(&bare[1..]) => Ok(-value(&bare[1..])),
        [b'0', ..] if digits(bare) => Err(Became::LeadingZero),
        [b'-', b'0'] => Err(Became::MinusZero),
        [b'-', b'0', ..] if digits(&bare[1..]) => Err(Became::ZeroBehindSign),
        [b'-', b' ', ..] => Err(Became::SpaceBehindSign),
        [b'-', b'-', ..] => Err(Became::TwoSigns),
        [b'+', _, ..] if digits(&bare[1..]) => Err(Became::PlusSign),
        [b'\t', _, ..] => Err(Became::Tab),
        [b'-', behind @ ..] | behind => Err(stray(behind)),
    }
}

fn digits(text: &[u8]) -> bool {
    text.iter().all(u8::is_ascii_digit)
}

fn value(digits: &[u8]) -> i32 {
    digits.iter().fold(0, |sum, digit| 10 * sum + i32::from(digit - b'0'))
}

/// What is wrong about the first byte that is no digit, where digits have to stand.
fn stray(text: &[u8]) -> Became {
    let first = text.iter().position(|byte| !byte.is_ascii_digit()).expect("a byte that is no digit");
    let behind = &text[first..];
    match text[first] {
        b'-' if first > 0 => Became::SignBehindDigits,
        b' ' if behind.iter().all(|byte| *byte == b' ') => Became::SpacesBehindDigits,
        b' ' if behind.iter().all(|byte| *byte == b' ' || byte.is_ascii_digit()) => Became::SpaceBetweenDigits,
        b'/' => Became::Slash,
        b':' => Became::Colon,
        _ => Became::OtherByte,
    }
}

/// How many texts of a width spell a number, if so many digits may stand in them, 0 among them, and spaces and minus signs. A field
/// of w columns holds -(10^(w-1) - 1) to 10^w - 1 (RULES 3.2), each in one spelling. With d digits there are as many as if d
/// were the base.
pub fn well_formed(digits: u64, width: usize) -> u64 {
    digits.pow(width as u32) + digits.pow(width as u32 - 1) - 1
}

/// The bytes that texts are made of first: those of the rule, their neighbours and what may be taken for them. All others follow.
const FIRST: &[u8] =
    b" -019+/:\t\0\xFF5.,!\x1F\xB0\xA0\xAD\xB9xO2\r\n3468;7eEA_*lI\x0B\x0C\x10\x19\x60@pP?\x7F\x80\x81\x82";

/// So many of these bytes.
pub fn alphabet(size: usize) -> Vec<u8> {
    let others = (0..=255).filter(|byte| !FIRST.contains(byte));
    FIRST.iter().copied().chain(others).take(size).collect()
}

/// The largest alphabet that has at most so many texts of a width. It is no smaller than " -01".
pub fn alphabet_for(width: usize, most: usize) -> Vec<u8> {
    let size = (5..=256usize).rev().find(|size| size.pow(width as u32) <= most);
    alphabet(size.unwrap_or(4))
}

/// Every text of a width over an alphabet.
fn texts(alphabet: &[u8], width: usize) -> impl Iterator<Item = Vec<u8>> + '_ {
    let size = alphabet.len();
    (0..size.pow(width as u32)).map(move |number| {
        let mut left = number;
        let next = |_| {
            let byte = alphabet[left % size];
            left /= size;
            byte
        };
        (0..width).map(next).collect()
    })
}

/// Some numbers of each sort that a field of a width holds, with each byte of an alphabet in each column.
fn near_texts(alphabet: &[u8], width: usize) -> Vec<Vec<u8>> {
    let longest = [987_654 % 10i32.pow(width as u32), -(123_456 % 10i32.pow(width as u32 - 1))];
    let spelled = [0, 1, 12, -1, -12].iter().chain(&longest).map(|number| format!("{number:width$}").into_bytes());
    let mut near = Vec::new();
    for text in spelled.filter(|text| text.len() == width) {
        for column in 0..width {
            near.extend(alphabet.iter().map(|byte| {
                let mut changed = text.clone();
                changed[column] = *byte;
                changed
            }));
        }
    }
    near
}

/// What became of texts of number fields, by their width: width 1 stands first.
#[derive(Clone, Copy, Debug, Default, PartialEq, Eq)]
pub struct Texts {
    /// How many texts over alphabets were tried, all of an alphabet together.
    pub tried: [u64; WIDEST],
    /// How many of them were taken.
    pub taken: [u64; WIDEST],
    /// How many of them have to be taken, by the formula.
    pub well_formed: [u64; WIDEST],
    /// How often each of these became of any text.
    pub became: [[u64; WIDEST]; TEXTS_BECAME.len()],
}

/// Where texts stand: in single records, and in files.
pub const TEXTS_IN: [&str; 2] = ["single records", "files"];

impl Texts {
    /// Those of several comparisons side by side.
    pub fn sum<'a>(all: impl Iterator<Item = &'a Texts>) -> Texts {
        let mut sum = Texts::default();
        for texts in all {
            add(&mut sum.tried, &texts.tried);
            add(&mut sum.taken, &texts.taken);
            add(&mut sum.well_formed, &texts.well_formed);
            sum.became.iter_mut().zip(&texts.became).for_each(|(sum, became)| add(sum, became));
        }
        sum
    }

    /// A word about a width of which more or fewer texts were taken than are well formed.
    pub fn miscounted(&self) -> Option<String> {
        let width = (0..WIDEST).find(|width| self.taken[*width] != self.well_formed[*width])?;
        let (taken, well_formed) = (self.taken[width], self.well_formed[width]);
        Some(format!("of all texts of width {} both programs take {taken}, but {well_formed} are well formed", width + 1))
    }

    /// A word about something that never became of a text of a width that it can become of.
    pub fn missing(&self) -> Option<String> {
        let never = TEXTS_BECAME.iter().zip(&self.became).flat_map(|((what, least), became)| {
            (*least..=WIDEST).filter(|width| became[width - 1] == 0).map(move |width| (what, width))
        });
        never.map(|(what, width)| format!("no text of width {width} was ever this: {what}")).next()
    }
}

fn add(sum: &mut [u64; WIDEST], more: &[u64; WIDEST]) {
    sum.iter_mut().zip(more).for_each(|(sum, more)| *sum += more);
}

/// A number field of a sheet, in which texts are tried.
struct Spot<'a> {
    records: &'a Records,
    /// The place of its record, from 0.
    place: usize,
    /// Which of the record's numbers it is, from 0.
    index: usize,
    field: Field,
    /// The record's value.
    value: Value,
    /// Whether the whole file is judged, or the record alone is read.
    in_file: bool,
}

impl Spot<'_> {
    fn of(records: &Records, place: usize, index: usize, in_file: bool) -> Spot<'_> {
        let (kind, bytes) = records[place];
        let value = read(kind, &bytes).expect("a record of a sheet is good");
        Spot { records, place, index, field: layout(kind).numbers[index], value, in_file }
    }

    /// Whether land has a spelling of its own here.
    fn has_land(&self) -> bool {
        self.field.sort == Sort::Code && self.value.numbers[0] == 5
    }

    fn spelled(&self, text: &[u8]) -> Spelled {
        if self.has_land() && *text == LAND {
            Ok(0)
        } else {
            read_off(text)
        }
    }

    /// One text, and what it spells. The answer is whether it is taken.
    fn tried(&self, compare: &mut Compare, text: &[u8], spelled: Spelled) -> Result<bool, Disagreement> {
        let mut bytes = self.records[self.place].1;
        set(&mut bytes, &self.field, text);
        let taken = if self.in_file {
            self.judged(compare, bytes, text, spelled)?
        } else {
            self.read(compare, bytes, text, spelled)?
        };
        let became = match spelled {
            Ok(_) if text.contains(&b'-') => Became::WithSign,
            Ok(_) => Became::WithoutSign,
            Err(why) => why,
        };
        compare.texts[usize::from(self.in_file)].became[became as usize][text.len() - 1] += 1;
        Ok(taken)
    }

    /// The record with a text is read, and written back.
    fn read(
        &self,
        compare: &mut Compare,
        bytes: [u8; RECORD],
        text: &[u8],
        spelled: Spelled,
    ) -> Result<bool, Disagreement> {
        let told = compare.reading(self.value.kind, &bytes)?;
        if told == self.reading(text, spelled) {
            Ok(told.0 == Refusal::default())
        } else {
            Err(self.differs(text, spelled, format!("{told:?}"), &bytes))
        }
    }

    /// What has to be read.
    fn reading(&self, text: &[u8], spelled: Spelled) -> (Refusal, RawValue) {
        let mut value = self.value;
        let Ok(number) = spelled else {
            let refusal = Refusal { number: 5, record: 1, column: self.field.start as u32 };
            return (refusal, Value::empty(value.kind).into());
        };
        value.numbers[self.index] = number;
        if let Some(place) = codes(value.kind).iter().position(|index| *index == self.index) {
            value.marks[place] = u32::from(*text == LAND);
        }
        (Refusal::default(), value.into())
    }

    /// The file with a text is judged. Where the text is ill formed it is refused, for all that is judged before it is good.
    fn judged(
        &self,
        compare: &mut Compare,
        bytes: [u8; RECORD],
        text: &[u8],
        spelled: Spelled,
    ) -> Result<bool, Disagreement> {
        let mut changed = self.records.clone();
        changed[self.place].1 = bytes;
        let file = joined(&changed);
        let verdict = verdict(&file);
        compare.whole_file(&file, &verdict)?;
        let here = Refusal { number: 5, record: self.place as u32 + 1, column: self.field.start as u32 };
        let taken = verdict.early != here;
        if taken == spelled.is_ok() {
            Ok(taken)
        } else {
            Err(self.differs(text, spelled, format!("{:?}", verdict.early), &file))
        }
    }

    /// Both programs say the same, and it is not what the rule says.
    fn differs(&self, text: &[u8], spelled: Spelled, ours: String, bytes: &[u8]) -> Disagreement {
        let said = match spelled {
            Ok(number) => format!("it is {number}"),
            Err(why) => format!("it is refused for this: {}", TEXTS_BECAME[why as usize].0),
        };
        let (kind, column) = (self.value.kind, self.field.start);
        let what = format!("\"{}\" at {column} of kind {kind:?}, by RULES 3.1 {said}", text.escape_ascii());
        Disagreement { what, ours, theirs: "the same".into(), bytes: bytes.to_vec() }
    }

    /// Every text over an alphabet.
    fn every_text(&self, compare: &mut Compare, alphabet: &[u8]) -> Agreed {
        let width = self.field.width();
        let within = usize::from(self.in_file);
        if compare.is_first() {
            let digits = alphabet.iter().filter(|byte| byte.is_ascii_digit()).count() as u64;
            compare.texts[within].well_formed[width - 1] += well_formed(digits, width) + u64::from(self.has_land());
        }
        for text in texts(alphabet, width) {
            if compare.turn() {
                let taken = self.tried(compare, &text, self.spelled(&text))?;
                compare.texts[within].tried[width - 1] += 1;
                compare.texts[within].taken[width - 1] += u64::from(taken);
            }
        }
        Ok(())
    }

    /// Texts near numbers of each sort.
    fn near_texts(&self, compare: &mut Compare, alphabet: &[u8]) -> Agreed {
        for text in near_texts(alphabet, self.field.width()) {
            if compare.turn() {
                self.tried(compare, &text, self.spelled(&text))?;
            }
        }
        Ok(())
    }

    /// Every number that the field holds; or not every one, but so many at least.
    fn every_number(&self, compare: &mut Compare, least: usize) -> Agreed {
        let width = self.field.width();
        let numbers = 1 - 10i32.pow(width as u32 - 1)..10i32.pow(width as u32);
        let step = (numbers.len() / least).max(1);
        for number in numbers.step_by(step) {
            if compare.turn() {
                self.tried(compare, format!("{number:width$}").as_bytes(), Ok(number))?;
            }
        }
        Ok(())
    }
}

/// One field of each width, no code, in which more texts are tried than in the others. They are of several kinds.
pub const OF_EACH_WIDTH: [(Kind, usize); WIDEST] = [
    (Kind::L, l::START_LINK), (Kind::N, n::FRAME), (Kind::M, m::LAYERS), (Kind::Loop, lp::COUNT), (Kind::Coordinates, 3),
    (Kind::L, l::POINTS),
];

/// A small alphabet has so many texts of a width, or fewer; or it is " -01".
const FEW: usize = 1024;

/// So many bytes are set in each column of texts, where not all are.
const NEAR: usize = 24;

/// Part 2 also: texts of number fields, in single records. Each number field of every kind has every text over a small alphabet.
/// Then one field of each width has every text over an alphabet with up to `most` of them, and every number that it holds, or `most`
/// of these at least.
pub fn every_text(compare: &mut Compare, most: usize) -> Agreed {
    let (records, land) = (sheet_s().records(), land_s().records());
    let numbers = |place: usize| 0..layout(records[place].0).numbers.len();
    let spots = (0..records.len()).flat_map(|place| numbers(place).map(move |index| (place, index)));
    for spot in spots.map(|(place, index)| Spot::of(&records, place, index, false)) {
        some_texts(compare, &spot)?;
    }
    for (place, (kind, _)) in land.iter().enumerate() {
        for spot in codes(*kind).iter().map(|index| Spot::of(&land, place, *index, false)) {
            some_texts(compare, &spot)?;
        }
    }
    for (kind, index) in OF_EACH_WIDTH {
        let place = records.iter().position(|record| record.0 == kind).expect("sheet S has every kind");
        let spot = Spot::of(&records, place, index, false);
        spot.every_text(compare, &alphabet_for(spot.field.width(), most))?;
        spot.near_texts(compare, &alphabet(256))?;
        spot.every_number(compare, most)?;
    }
    counted(compare)
}

/// Part 2 also: texts of number fields, in files. Some fields of sheet S, or all of them, have every text over a small alphabet; and so
/// have fields of the later records of a line and of a loop.
pub fn texts_in_files(compare: &mut Compare, all: bool) -> Agreed {
    let (records, land, longer) = (sheet_s().records(), land_s().records(), longer_s().records());
    for place in 0..records.len() {
        fields_in_files(compare, &records, place, all)?;
    }
    for place in longer_places(&longer) {
        fields_in_files(compare, &longer, place, all)?;
    }
    for (place, (kind, _)) in land.iter().enumerate() {
        for index in codes(*kind) {
            some_texts(compare, &Spot::of(&land, place, *index, true))?;
        }
    }
    counted(compare)
}

/// Some number fields of one record, in files, or all of them.
pub fn fields_in_files(compare: &mut Compare, records: &Records, place: usize, all: bool) -> Agreed {
    let kind = records[place].0;
    for index in 0..layout(kind).numbers.len() {
        if all || some_numbers(kind).contains(&index) {
            some_texts(compare, &Spot::of(records, place, index, true))?;
        }
    }
    Ok(())
}

/// Every text over a small alphabet, and texts near numbers.
fn some_texts(compare: &mut Compare, spot: &Spot) -> Agreed {
    spot.every_text(compare, &alphabet_for(spot.field.width(), FEW))?;
    spot.near_texts(compare, &alphabet(NEAR))
}

/// Numbers of each kind that the judge looks at in other ways: codes and totals, what steers the walk, places, entries and what is
/// past the last of them.
fn some_numbers(kind: Kind) -> &'static [usize] {
    match kind {
        Kind::M => &[m::MESH, m::LAYERS, m::NODES, m::RECORDS],
        Kind::H => &[h::LAYER, h::NODES, h::RECORDS, h::FIRST_MADE],
        Kind::N => &[n::X, n::FRAME, n::SLOTS, n::SLOTS + 2],
        Kind::L => &[l::START, l::START_LINK, l::RIGHT_AREA, l::POINTS],
        Kind::Coordinates => &[2, 3, 11],
        Kind::A => &[a::X, a::LINES],
        Kind::Loop => &[lp::SERIAL, lp::COUNT, lp::SLOTS, lp::SLOTS + 1],
    }
}

/// As many texts have been taken as are well formed. One of several comparisons does not know that of all texts.
fn counted(compare: &Compare) -> Agreed {
    let word = compare.texts.iter().find_map(Texts::miscounted).filter(|_| compare.is_alone());
    match word {
        None => Ok(()),
        Some(what) => Err(Disagreement { what, ours: "as said".into(), theirs: "the same".into(), bytes: Vec::new() }),
    }
}

/// Sheet S whose frame is cut into 13 lines, so that its loop takes two records. The first line stands still at its start for a
/// while, so that it takes two records too.
pub fn longer_s() -> Sheet {
    let mut sheet = sheet_s();
    let layer = &mut sheet.meshes[0].layers[0];
    let up = (0..10).map(|k| (0, 1000 * k));
    let places: Vec<(i32, i32)> = up.chain([(0, 10_000), (10_000, 10_000), (10_000, 0)]).collect();
    let count = places.len();
    let whole = layer.lines.remove(0);
    layer.nodes.clear();
    for (index, place) in places.iter().enumerate() {
        let (line, before, next) = (index + 1, (index + count - 1) % count + 1, (index + 1) % count);
        layer.nodes.push(Node { item: 3, place: *place, entries: vec![line as i32, -(before as i32)] });
        let ends = [line, next + 1].map(|node| End { node: node as i32, link: 2 });
        layer.lines.push(Line { ends, points: vec![*place, places[next]], ..whole.clone() });
    }
    layer.lines[0].points.splice(0..0, [places[0]; 7]);
    layer.areas[0].loops[0] = (1..=count as i32).collect();
    sheet
}

/// The later records of a line and of a loop.
fn longer_places(records: &Records) -> Vec<usize> {
    let later = |kind: Kind| (1..records.len()).find(move |place| records[place - 1].0 == kind && records[*place].0 == kind);
    [Kind::Coordinates, Kind::Loop].into_iter().filter_map(later).collect()
}

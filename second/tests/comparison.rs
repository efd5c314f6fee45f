//! The comparison agrees with a right program and finds wrong ones.

mod parts;

use parts::{are_found, compared};
use second::compare::{full_totals, one_byte_changes, Compare, NEVER};
use second::damage::{set, steering};
use second::due::dues;
use second::fields::{number, CODE, LAND};
use second::judge::{verdict, Counts, Outcome, Verdict};
use second::layout::{a, codes, l, layout, Kind, KINDS, LAYER, RECORD};
use second::product::{Product, RawValue, Second};
use second::records::{letters, Refusal};
use second::sums::Sums;
use second::walk::{record, stage_1};

/// This program with one call made wrong.
struct Wrong(&'static str);

/// The file in which each number that steers the walk is the one that a wrong reader reads. A right walk then goes where
/// a wrong one would.
fn misread(file: &[u8], reader: fn(&[u8]) -> Option<i32>) -> Vec<u8> {
    let mut file = file.to_vec();
    let mut kinds = dues(&file);
    for k in 0..file.len() / RECORD {
        let bytes = &mut file[k * RECORD..(k + 1) * RECORD];
        let before = bytes.to_vec();
        for field in steering(kinds[k]).iter().map(|index| layout(kinds[k]).numbers[*index]) {
            let text = format!("{:1$}", reader(field.of(&before)).unwrap_or(0), field.width());
            set(bytes, &field, &text.as_bytes()[..field.width()]);
        }
        if *bytes != before {
            kinds = dues(&file);
        }
    }
    file
}

/// The number that a field's digits make.
fn digits(field: &[u8]) -> Option<i32> {
    let digits: String = field.iter().filter(|byte| byte.is_ascii_digit()).map(|byte| char::from(*byte)).collect();
    digits.parse().ok()
}

/// A number of five columns in a record.
struct Spot<'a> {
    kind: Kind,
    index: usize,
    text: &'a [u8],
    /// The number behind it, in an L the area number behind a code.
    behind: &'a [u8],
    /// What stands as the layer code.
    layer: Option<i32>,
    /// The layer code of the file's first layer.
    first: Option<i32>,
}

impl Spot<'_> {
    fn is_code(&self) -> bool {
        codes(self.kind).contains(&self.index)
    }

    /// Land spelled " 0000", as a code in layer 5.
    fn is_land(&self) -> bool {
        self.is_code() && self.text == LAND && self.layer == Some(5)
    }

    fn is_code_of_5(&self, text: &[u8; CODE]) -> bool {
        self.is_code() && self.layer == Some(5) && self.text == text
    }
}

/// Land, a text that is ill formed, nobody's code, and a code that no sheet has.
const ZERO: &[u8; CODE] = b"    0";
const ILL: &[u8; CODE] = b"00000";
const NOBODY: &[u8; CODE] = b"88888";
const OWN: &[u8; CODE] = b"99998";

/// How a wrong program takes a number of five columns: as this text, if it does not take it as it stands.
fn taken(wrong: &str, spot: &Spot) -> Option<&'static [u8; CODE]> {
    let land_of = |kind, index| spot.is_land() && (spot.kind, spot.index) == (kind, index);
    let (yes, text) = match wrong {
        "land is refused" => (spot.is_land(), ILL),
        "a left code is never land" => (land_of(Kind::L, l::LEFT_CODE), ILL),
        "a right code is never land" => (land_of(Kind::L, l::RIGHT_CODE), ILL),
        "an area is never land" => (land_of(Kind::A, a::CODE), ILL),
        "land in layer 1" => (spot.is_code() && spot.text == LAND && spot.layer == Some(1), ZERO),
        "land in layer 15" => (spot.is_code() && spot.text == LAND && spot.layer == Some(15), ZERO),
        "land below layer 5" => (spot.is_code() && spot.text == LAND && spot.layer == Some(-5), ZERO),
        "land in layer 0" => (spot.is_code() && spot.text == LAND && spot.layer == Some(0), ZERO),
        "land by the first layer, 1" => (spot.is_land() && spot.first != Some(5), ILL),
        "land by the first layer, 5" => (spot.is_code() && spot.text == LAND && spot.first == Some(5), ZERO),
        "land as a left area" => ((spot.kind, spot.index) == (Kind::L, l::LEFT_AREA) && spot.text == LAND, ZERO),
        "land as a right area" => ((spot.kind, spot.index) == (Kind::L, l::RIGHT_AREA) && spot.text == LAND, ZERO),
        "land in an H" => (spot.kind == Kind::H && spot.text == LAND, ZERO),
        "land in an N" => (spot.kind == Kind::N && spot.text == LAND, ZERO),
        "land as a point" => (spot.kind == Kind::Coordinates && spot.text == LAND, ZERO),
        "land as an entry" => (spot.kind == Kind::Loop && spot.text == LAND, ZERO),
        "land as an area's point" => (spot.kind == Kind::A && spot.text == LAND && !spot.is_code(), ZERO),
        "five zeros" => (spot.is_code_of_5(b"00000"), ZERO),
        "three zeros" => (spot.is_code_of_5(b"  000"), ZERO),
        "two zeros" => (spot.is_code_of_5(b"   00"), ZERO),
        "zeros at the left" => (spot.is_code_of_5(b"0000 "), ZERO),
        "land below 0" => (spot.is_code_of_5(b"-0000"), ZERO),
        "land is nobody" => (spot.is_land(), NOBODY),
        "land beside nobody" => (spot.is_land() && spot.kind == Kind::L && spot.behind == ZERO, NOBODY),
        "0 beside nobody" => (spot.is_code_of_5(ZERO) && spot.kind == Kind::L && spot.behind == ZERO, NOBODY),
        "the spelling is compared" => (spot.is_land(), OWN),
        _ => panic!("{wrong}"),
    };
    yes.then_some(text)
}

/// A record as a wrong program takes it.
fn respelled(wrong: &str, kind: Kind, record: &[u8], first: Option<i32>) -> Vec<u8> {
    let mut taken_for = record.to_vec();
    let layer = number(LAYER.of(record));
    for (index, field) in layout(kind).numbers.iter().enumerate().filter(|(_, field)| field.width() == CODE) {
        let (text, behind) = (field.of(record), &record[field.end..field.end + CODE.min(RECORD - field.end)]);
        if let Some(text) = taken(wrong, &Spot { kind, index, text, behind, layer, first }) {
            set(&mut taken_for, field, text);
        }
    }
    taken_for
}

/// A file as a wrong program takes it.
fn respelled_file(wrong: &str, file: &[u8]) -> Vec<u8> {
    let first = number(record(file, 2).get(2..4).unwrap_or(&[]));
    let records = file.chunks(RECORD).zip(dues(file));
    let respell = |(bytes, kind): (&[u8], Kind)| match bytes.len() {
        RECORD => respelled(wrong, kind, bytes, first),
        _ => bytes.to_vec(),
    };
    records.flat_map(respell).collect()
}

/// A value as a wrong writer takes it.
fn mistaken(wrong: &str, value: RawValue) -> RawValue {
    let mut taken = value;
    let kind = KINDS[value.kind as usize - 1];
    let layer = value.numbers[0];
    let marked = codes(kind).iter().map(|index| value.numbers[*index]).zip(&mut taken.marks);
    match wrong {
        "marks are never written" if Second.write_record(value, &mut [0; RECORD]) == 0 => taken.marks = [0; 2],
        "marks are written in each other's place" => taken.marks.reverse(),
        "land has a mark wherever it is written" if layer == 5 => {
            marked.for_each(|(code, mark)| *mark |= u32::from(code == 0));
        }
        "no mark is wrong" => {
            let fit = |(code, mark): (i32, &mut u32)| *mark = u32::from(*mark == 1 && code == 0 && layer == 5);
            marked.for_each(fit);
            taken.marks.iter_mut().skip(codes(kind).len()).for_each(|mark| *mark = 0);
        }
        "2 is a mark" => taken.marks.iter_mut().for_each(|mark| *mark -= u32::from(*mark == 2)),
        "a mark is anything but 0" => taken.marks.iter_mut().for_each(|mark| *mark = (*mark).min(1)),
        "a mark is a bit" => taken.marks.iter_mut().for_each(|mark| *mark &= 1),
        "a mark is a byte" => taken.marks.iter_mut().for_each(|mark| *mark &= 0xFF),
        "a mark is half a word" => taken.marks.iter_mut().for_each(|mark| *mark &= 0xFFFF),
        "a mark has a sign" => taken.marks.iter_mut().for_each(|mark| *mark &= 0x7FFF_FFFF),
        "a mark beside another code" if layer == 5 => {
            marked.filter(|(code, mark)| *code != 0 && **mark == 1).for_each(|(_, mark)| *mark = 0);
        }
        "a mark in layer 1" if layer == 1 => {
            marked.filter(|(code, mark)| *code == 0 && **mark == 1).for_each(|(_, mark)| *mark = 0);
        }
        "a mark in any layer" if layer != 1 && layer != 5 => {
            marked.filter(|(code, mark)| *code == 0 && **mark == 1).for_each(|(_, mark)| *mark = 0);
        }
        "an area has a second mark" if kind == Kind::A => taken.marks[1] = 0,
        "every kind has marks" if codes(kind).is_empty() => taken.marks = [0; 2],
        _ => (),
    }
    taken
}

/// Marks as a wrong reader tells them.
fn mismarked(wrong: &str, kind: Kind, refused: bool, bytes: &[u8], value: &mut RawValue) {
    let land = |index: &usize| bytes.len() == RECORD && *layout(kind).numbers[*index].of(bytes) == LAND;
    let codes = codes(kind);
    match wrong {
        "marks are lost" => value.marks = [0; 2],
        "the left mark is lost" if kind == Kind::L => value.marks[0] = 0,
        "the right mark is lost" if kind == Kind::L => value.marks[1] = 0,
        "an area's mark is lost" if kind == Kind::A => value.marks[0] = 0,
        "marks in each other's place" if kind == Kind::L => value.marks.reverse(),
        "an area's mark in the second place" if kind == Kind::A => value.marks.reverse(),
        "one mark for both codes" if kind == Kind::L => value.marks = [value.marks[0] | value.marks[1]; 2],
        "a mark for every 0" if value.numbers[0] == 5 => {
            (0..codes.len()).for_each(|k| value.marks[k] = u32::from(value.numbers[codes[k]] == 0));
        }
        "a mark of 5" => value.marks.iter_mut().for_each(|mark| *mark *= 5),
        "marks turned round" if !refused => value.marks[..codes.len()].iter_mut().for_each(|mark| *mark ^= 1),
        "every kind is marked" if !refused && codes.is_empty() => value.marks[0] = 1,
        "marks when refused" if refused => {
            codes.iter().zip(&mut value.marks).for_each(|(index, mark)| *mark = u32::from(land(index)));
        }
        "land is read as nobody" => {
            codes.iter().filter(|index| !refused && land(index)).for_each(|index| value.numbers[*index] = 88888);
        }
        _ => (),
    }
}

/// What this program answers for all sums after a verdict that is made wrong.
fn answer_by(verdict: &Verdict, table: &mut [u32], sums: &mut [i64]) -> Outcome {
    if verdict.table_stands(table.len()) {
        table[..verdict.table.len()].copy_from_slice(&verdict.table);
    }
    let (outcome, found) = second::sums::answer_for_all(verdict, table.len(), sums.len());
    sums[..found.len()].copy_from_slice(&found);
    outcome
}

impl Product for Wrong {
    fn need(&self, file: &[u8]) -> u64 {
        Second.need(file) + u64::from(self.0 == "need")
    }

    fn judge(&self, file: &[u8], table: &mut [u32], measures: &mut [i64]) -> Outcome {
        if let Some(wrong) = self.0.strip_prefix("judge: ") {
            return Second.judge(&respelled_file(wrong, file), table, measures);
        }
        let mut outcome = Second.judge(file, table, measures);
        match self.0 {
            "land measures 0" if outcome.refusal.number == 0 => {
                let areas = verdict(file).table.into_iter().rev().take(outcome.counts.areas as usize).rev();
                for (k, measure) in areas.zip(measures) {
                    if layout(Kind::A).numbers[a::CODE].of(record(file, k as usize)) == LAND {
                        *measure = 0;
                    }
                }
            }
            "accepts" => outcome.refusal = Refusal::default(),
            "refuses" => outcome.refusal.number = 1,
            "no table" => table.fill(0),
            "one word too many" => table.iter_mut().rev().take(1).for_each(|word| *word = 0),
            "measures when refused" => measures.fill(0),
            "counts when refused" => outcome.counts.records = (file.len() / 74) as u32,
            "need when accepted" => outcome.need = Second.need(file),
            "not 18" if outcome.refusal.number == 18 => outcome.refusal = Refusal::default(),
            _ => (),
        }
        outcome
    }

    fn layer_sums(&self, file: &[u8], table: &mut [u32], layer: u32) -> (Refusal, Sums) {
        let (refusal, sums) = Second.layer_sums(file, table, layer);
        (refusal, if self.0 == "sums 0" { Sums::default() } else { sums })
    }

    fn all_sums(&self, file: &[u8], table: &mut [u32], sums: &mut [i64]) -> Outcome {
        let mut verdict = verdict(file);
        let (before, layers) = (table.to_vec(), verdict.layers);
        let no_room = Refusal { number: 48, record: 0, column: 0 };
        match self.0 {
            "the first layer's sums for all" if !verdict.sums.is_empty() => {
                let first = verdict.sums[0];
                verdict.sums.fill(first);
            }
            "areas are never summed" => verdict.sums.iter_mut().for_each(|sums| sums.areas = 0),
            "the outside is never summed" => verdict.sums.iter_mut().for_each(|sums| sums.outside = 0),
            "room before the table" if verdict.need() > table.len() as u64 && sums.len() < 2 * layers => {
                return Outcome { refusal: no_room, ..Outcome::default() };
            }
            "room before the later stages" if verdict.table_stands(table.len()) && sums.len() < 2 * layers => {
                verdict.late = no_room;
            }
            _ => (),
        }
        let mut outcome = answer_by(&verdict, table, sums);
        let refused = outcome.refusal == no_room;
        match self.0 {
            "room for one a layer" if refused && sums.len() >= layers => {
                outcome = verdict.outcome(table.len(), usize::MAX);
            }
            "room for one more" if outcome.refusal.number == 0 && sums.len() == 2 * layers => {
                outcome = Outcome { refusal: no_room, ..Outcome::default() };
            }
            "sums with 48" if refused => {
                sums.iter_mut().zip(&verdict.sums).for_each(|(place, sums)| *place = sums.areas);
            }
            "no table with 48" if refused => table.copy_from_slice(&before),
            "counts with 48" if refused => outcome.counts = verdict.counts,
            "need with 48" if refused => outcome.need = verdict.need(),
            "48 has a place" if refused => outcome.refusal.record = 1,
            "19 in its place" if refused => outcome.refusal.number = 19,
            "22 in its place" if refused => outcome.refusal.number = 22,
            "never 48" if refused => outcome = verdict.outcome(table.len(), usize::MAX),
            "no need with 9" if outcome.refusal.number == 9 => outcome.need = 0,
            "no counts" => outcome.counts = Counts::default(),
            "sums past the last" => sums.iter_mut().skip(2 * layers).for_each(|place| *place = 0),
            "sums cleared when refused" if outcome.refusal.number != 0 => sums.fill(0),
            _ => (),
        }
        outcome
    }

    fn due(&self, file: &[u8], at: u32) -> u32 {
        let last = (file.len() / RECORD) as u32;
        match self.0 {
            "due a record late" => Second.due(file, at.saturating_sub(1)),
            "due a record early" => Second.due(file, at.saturating_add(1)),
            "due from record 0 on" if at == 0 => 1,
            "due by letters" if (1..=last).contains(&at) => {
                let lettered = [Kind::M, Kind::H, Kind::N, Kind::L, Kind::A];
                let kind = lettered.into_iter().find(|kind| letters(*kind, record(file, at as usize)).is_some());
                kind.map_or(Second.due(file, at), |kind| kind as u32)
            }
            "nothing due behind the last" if at == last + 1 => 0,
            "nothing due where the file may end" if at == last + 1 && Second.due(file, at) == 1 => 0,
            "M past the end" if at > last + 1 => 1,
            "nothing due behind a refusal" => {
                let refused = verdict(file).outcome(usize::MAX, usize::MAX).refusal.record;
                if refused != 0 && at > refused {
                    0
                } else {
                    Second.due(file, at)
                }
            }
            "nothing due in a refused file" if verdict(file).early.number != 0 => 0,
            "nothing due where bytes are wrong" if stage_1(file).is_err() => 0,
            "a cut record is looked at" => {
                let mut whole = file.to_vec();
                whole.resize(file.len().next_multiple_of(RECORD), b' ');
                Second.due(&whole, at)
            }
            "ill formed counts as 1" => Second.due(&misread(file, |field| number(field).or(Some(1))), at),
            "ill formed counts by its digits" => Second.due(&misread(file, |field| number(field).or(digits(field))), at),
            "below 0 counts as 0" => Second.due(&misread(file, |field| number(field).map(|number| number.max(0))), at),
            _ => Second.due(file, at),
        }
    }

    fn position(&self, mesh: i32, x: i32, y: i32) -> (u32, f64, f64) {
        let (number, latitude, longitude) = Second.position(mesh, x, y);
        (number, latitude, if self.0 == "position" { longitude * 3.0 / 3.0 } else { longitude })
    }

    fn read_record(&self, kind: u32, bytes: &[u8]) -> (Refusal, RawValue) {
        let of_kind = KINDS[kind as usize - 1];
        if let (Some(wrong), RECORD) = (self.0.strip_prefix("reader: "), bytes.len()) {
            return Second.read_record(kind, &respelled(wrong, of_kind, bytes, None));
        }
        let (refusal, mut value) = Second.read_record(kind, bytes);
        if self.0 == "value when refused" && refusal.number != 0 {
            value.numbers[0] = 1;
        }
        mismarked(self.0, of_kind, refusal.number != 0, bytes, &mut value);
        (refusal, value)
    }

    fn write_record(&self, value: RawValue, buffer: &mut [u8]) -> u32 {
        let number = Second.write_record(value, buffer);
        let unmarked = RawValue { marks: [0; 2], ..value };
        let wrong_marks = [value, unmarked].map(|value| Second.write_record(value, &mut [0; RECORD])) == [20, 0];
        match self.0 {
            "writes before it refuses" if number != 0 && !buffer.is_empty() => buffer[0] = b'M',
            "writes before it looks at marks" if number == 20 => {
                Second.write_record(unmarked, buffer);
            }
            "marks before the buffer" if wrong_marks => return 20,
            _ => return Second.write_record(mistaken(self.0, value), buffer),
        }
        number
    }
}

#[test]
fn a_right_program_agrees() {
    let compare = &mut Compare::new(&Second);
    compared(compare).unwrap();
    assert!(!compare.land.contains(&0), "{:?}", compare.land);
    assert!(!compare.lines.contains(&0), "{:?}", compare.lines);
    assert!(compare.reached.iter().all(|call| call[NEVER] == 0));
    one_byte_changes(compare).unwrap();
    full_totals(compare).unwrap();
    assert!(!compare.totals.contains(&0), "{:?}", compare.totals);
}

#[test]
fn wrong_programs_are_found() {
    are_found(Wrong, &[
        "need", "accepts", "refuses", "no table", "one word too many", "measures when refused", "counts when refused",
        "need when accepted", "not 18", "sums 0", "position", "value when refused", "writes before it refuses",
    ]);
}

#[test]
fn wrong_sums_of_all_layers_are_found() {
    are_found(Wrong, &[
        "the first layer's sums for all", "areas are never summed", "the outside is never summed", "room before the table",
        "room before the later stages", "room for one a layer", "room for one more", "sums with 48", "no table with 48",
        "counts with 48", "need with 48", "48 has a place", "19 in its place", "22 in its place", "never 48", "no need with 9",
        "no counts", "sums past the last", "sums cleared when refused",
    ]);
}

#[test]
fn wrong_dues_are_found() {
    are_found(Wrong, &[
        "due a record late", "due a record early", "due from record 0 on", "due by letters", "nothing due behind the last",
        "nothing due where the file may end", "M past the end", "nothing due behind a refusal", "nothing due in a refused file",
        "nothing due where bytes are wrong", "a cut record is looked at", "ill formed counts as 1",
        "ill formed counts by its digits", "below 0 counts as 0",
    ]);
}

#[test]
fn wrong_codes_are_found() {
    are_found(Wrong, &[
        "judge: land is refused", "judge: a left code is never land", "judge: a right code is never land",
        "judge: an area is never land", "judge: land in layer 1", "judge: land by the first layer, 1",
        "judge: land by the first layer, 5", "judge: land as a left area", "judge: land as a right area", "judge: land in an H",
        "judge: land in an N", "judge: land as a point", "judge: land as an entry", "judge: land as an area's point",
        "judge: five zeros", "judge: three zeros", "judge: two zeros", "judge: zeros at the left", "judge: land below 0",
        "judge: land is nobody", "judge: land beside nobody", "judge: 0 beside nobody", "judge: the spelling is compared",
        "land measures 0",
        "reader: land is refused", "reader: a left code is never land", "reader: a right code is never land",
        "reader: an area is never land", "reader: land in layer 1", "reader: land in layer 15", "reader: land below layer 5",
        "reader: land in layer 0", "reader: land as a left area", "reader: land as a right area", "reader: land in an H",
        "reader: land in an N", "reader: land as a point", "reader: land as an entry", "reader: land as an area's point",
        "reader: five zeros", "reader: three zeros", "reader: two zeros", "reader: zeros at the left", "reader: land below 0",
    ]);
}

#[test]
fn wrong_marks_are_found() {
    are_found(Wrong, &[
        "marks are lost", "the left mark is lost", "the right mark is lost", "an area's mark is lost",
        "marks in each other's place", "an area's mark in the second place", "one mark for both codes", "a mark for every 0",
        "a mark of 5", "marks turned round", "every kind is marked", "marks when refused", "land is read as nobody",
        "marks are never written", "marks are written in each other's place", "land has a mark wherever it is written",
        "no mark is wrong", "2 is a mark", "a mark is anything but 0", "a mark is a bit", "a mark is a byte",
        "a mark is half a word", "a mark has a sign", "a mark beside another code", "a mark in layer 1", "a mark in any layer",
        "an area has a second mark", "every kind has marks", "writes before it looks at marks", "marks before the buffer",
    ]);
}

//! Wrong number readers are found by the comparison's part about number fields.

use second::compare::{Agreed, Compare};
use second::damage::set;
use second::due::dues;
use second::fields::{number, spelled, LAND};
use second::generate::assert_accepted;
use second::judge::Outcome;
use second::layout::{layout, Field, Kind, Sort, KINDS, RECORD};
use second::numbers::{alphabet, alphabet_for, every_text, fields_in_files, longer_s, read_off, texts_in_files};
use second::numbers::{well_formed, Texts, OF_EACH_WIDTH, TEXTS_BECAME, WIDEST};
use second::product::{Product, RawValue, Second};
use second::records::Refusal;
use second::sheet::sheet_s;
use second::sums::Sums;
use std::sync::Mutex;

/// This program with one call that reads numbers in a wrong way, in some fields or in all.
#[derive(Clone, Copy)]
struct Wrong {
    call: &'static str,
    way: &'static str,
    only: Only,
}

#[derive(Clone, Copy, Debug)]
enum Only {
    All,
    Width(usize),
    Field(Kind, usize),
}

// Numbers as a wrong reader reads them.

/// The number of a text of digits, leading zeros or not.
fn plain(digits: &[u8]) -> Option<i32> {
    let number = |digits: &[u8]| digits.iter().fold(0, |sum, digit| 10 * sum + i32::from(*digit) - i32::from(b'0'));
    (!digits.is_empty() && digits.iter().all(u8::is_ascii_digit)).then(|| number(digits))
}

/// The number of bytes that do not fill the field, if spaces were in front.
fn aligned(bytes: &[u8], width: usize) -> Option<i32> {
    let mut text = vec![b' '; width.saturating_sub(bytes.len())];
    text.extend(bytes);
    number(&text)
}

/// The number of a text in which other bytes count as digits: those from the first to the last.
fn with_digits(text: &[u8], first: u8, last: u8) -> Option<i32> {
    let (sign, digits) = match text.strip_prefix(b"-") {
        Some(digits) => (-1, digits),
        None => (1, text),
    };
    let is_digit = |byte: &u8| (first..=last).contains(byte);
    let number = digits.iter().fold(0, |sum, digit| 10 * sum + i32::from(*digit) - i32::from(b'0'));
    (!digits.is_empty() && digits.iter().all(is_digit) && digits[0] != b'0').then_some(sign * number)
}

/// The digits of a number.
fn shown(number: i32) -> Vec<u8> {
    number.abs().to_string().into_bytes()
}

fn misread(way: &str, text: &[u8]) -> Option<i32> {
    let (right, width) = (number(text), text.len());
    let blanks = text.iter().take_while(|byte| **byte == b' ').count();
    let bare = &text[blanks..];
    let changed = |to: &dyn Fn(u8) -> u8| number(&text.iter().map(|byte| to(*byte)).collect::<Vec<u8>>());
    let for_another = |from: u8, to: u8| right.or_else(|| changed(&|byte| if byte == from { to } else { byte }));
    let without_spaces: Vec<u8> = text.iter().copied().filter(|byte| *byte != b' ').collect();
    let behind_sign = bare.strip_prefix(b"-");
    let below = |digits: &[u8]| aligned(&[b"-", digits].concat(), width);
    let (low, high) = (1 - 10i32.pow(width as u32 - 1), 10i32.pow(width as u32) - 1);
    match way {
        "a plus sign is taken" => for_another(b'+', b' '),
        "a plus sign is a minus sign" => for_another(b'+', b'-'),
        "leading zeros are taken" => right.or_else(|| plain(bare)),
        "one leading zero is taken" => right.or_else(|| number(bare.strip_prefix(b"0")?)),
        "zeros alone are 0" => right.or_else(|| plain(bare).filter(|number| *number == 0)),
        "-0 is 0" => right.or((bare == b"-0").then_some(0)),
        "zeros behind the sign are taken" => {
            right.or_else(|| plain(behind_sign?).filter(|number| *number != 0).map(|number| -number))
        }
        "spaces alone are 0" => right.or(bare.is_empty().then_some(0)),
        "a sign alone is 0" => right.or((bare == b"-").then_some(0)),
        "a sign alone is -1" => right.or((bare == b"-").then_some(-1)),
        "a tab is a space" => for_another(b'\t', b' '),
        "00 is a space" => for_another(0, b' '),
        "FF is a space" => for_another(0xFF, b' '),
        "A0 is a space" => for_another(0xA0, b' '),
        "a control byte is a space" => right.or_else(|| changed(&|byte| byte.max(b' '))),
        "spaces behind the digits are taken" => right.or_else(|| aligned(bare.trim_ascii_end(), width)),
        "one space behind the digits is taken" => right.or_else(|| number(bare.strip_suffix(b" ")?)),
        "spaces behind the sign are taken" => right.or_else(|| below(behind_sign?.trim_ascii_start())),
        "spaces between digits are taken" if text.ends_with(b" ") => right,
        "spaces between digits are taken" => right.or_else(|| aligned(&without_spaces, width)),
        "what is behind a space is not looked at" => {
            right.or_else(|| aligned(bare.split(|byte| *byte == b' ').next()?, width))
        }
        "spaces anywhere are taken" => right.or_else(|| aligned(&without_spaces, width)),
        "the first digit is lost" => right.map(|number| number % 10i32.pow(shown(number).len().max(2) as u32 - 1)),
        "the last digit is lost" => right.map(|number| if number.abs() > 9 { number / 10 } else { number }),
        "the first column is not looked at" if width > 1 => number(&text[1..]),
        "the last column is not looked at" if width > 1 => number(&text[..width - 1]),
        "\":\" is a digit" => right.or_else(|| with_digits(bare, b'0', b':')),
        "\"/\" is a digit" => right.or_else(|| with_digits(bare, b'/', b'9')),
        "the sign is lost" => right.map(i32::abs),
        "below 0 is refused" => right.filter(|number| *number >= 0),
        "the high bit is lost" => changed(&|byte| byte & 0x7F),
        "a digit is its low bits" => right.or_else(|| changed(&|byte| if byte < b'@' { byte } else { b'0' | byte & 0x0F })),
        "0 is refused" => right.filter(|number| *number != 0),
        "9 is no digit" => right.filter(|_| !text.contains(&b'9')),
        "a full field is refused" => right.filter(|_| width == 1 || text[0] == b' '),
        "a sign in the first column is refused" => right.filter(|_| text[0] != b'-'),
        "a sign behind the digits is taken" => right.or_else(|| below(bare.strip_suffix(b"-")?)),
        "two signs are one" => right.or_else(|| below(behind_sign?.strip_prefix(b"-")?)),
        "two signs are none" => right.or_else(|| aligned(behind_sign?.strip_prefix(b"-")?, width)),
        "digits are read backwards" => right.map(|number| {
            let backwards: Vec<u8> = shown(number).into_iter().rev().collect();
            number.signum() * plain(&backwards).expect("digits")
        }),
        "a number is a byte" => right.map(|number| i32::from(number as i8)),
        "a number is half a word" => right.map(|number| i32::from(number as i16)),
        "a number has at most four digits" => right.filter(|number| number.abs() < 10_000),
        "the largest is refused" => right.filter(|number| *number != high),
        "the least is refused" => right.filter(|number| *number != low || low == 0),
        "a point behind the digits is taken" => right.or_else(|| number(bare.strip_suffix(b".")?)),
        "a point is a sign" => for_another(b'.', b'-'),
        "a comma is a sign" => for_another(b',', b'-'),
        "O is 0" => for_another(b'O', b'0'),
        "one less below 0" => right.map(|number| number - i32::from(number < 0)),
        _ => right,
    }
}

/// Every wrong way to read a number, and in how many columns it is at least wrong.
const WAYS: [(&str, usize); 51] = [
    ("a plus sign is taken", 2), ("a plus sign is a minus sign", 2), ("leading zeros are taken", 2),
    ("one leading zero is taken", 2), ("zeros alone are 0", 2), ("-0 is 0", 2), ("zeros behind the sign are taken", 3),
    ("spaces alone are 0", 1), ("a sign alone is 0", 1), ("a sign alone is -1", 1), ("a tab is a space", 2),
    ("00 is a space", 2), ("FF is a space", 2), ("A0 is a space", 2), ("a control byte is a space", 2),
    ("spaces behind the digits are taken", 2), ("one space behind the digits is taken", 2),
    ("spaces behind the sign are taken", 3), ("spaces between digits are taken", 3),
    ("what is behind a space is not looked at", 2), ("spaces anywhere are taken", 2), ("the first digit is lost", 2),
    ("the last digit is lost", 2), ("the first column is not looked at", 2), ("the last column is not looked at", 2),
    ("\":\" is a digit", 1), ("\"/\" is a digit", 1), ("the sign is lost", 2), ("below 0 is refused", 2),
    ("the high bit is lost", 1), ("a digit is its low bits", 1), ("0 is refused", 1), ("9 is no digit", 1),
    ("a full field is refused", 2), ("a sign in the first column is refused", 2), ("a sign behind the digits is taken", 2),
    ("two signs are one", 3), ("two signs are none", 3), ("digits are read backwards", 2), ("a number is a byte", 3),
    ("a number is half a word", 5), ("a number has at most four digits", 5), ("the largest is refused", 1),
    ("the least is refused", 2), ("a point behind the digits is taken", 2), ("a point is a sign", 2), ("a comma is a sign", 2),
    ("O is 0", 1), ("one less below 0", 2), ("refused at its end", 2), ("refused with 6", 1),
];

impl Wrong {
    fn is(&self, call: &str) -> bool {
        self.call == call || self.call == "every call"
    }

    fn reads(&self, kind: Kind, index: usize, field: &Field) -> bool {
        match self.only {
            Only::All => true,
            Only::Width(width) => field.width() == width,
            Only::Field(of_kind, of_index) => (of_kind, of_index) == (kind, index),
        }
    }

    /// The numbers of a record that are read in another way than the right one, and how.
    fn misread(&self, kind: Kind, record: &[u8]) -> Vec<(usize, Option<i32>)> {
        let fields = layout(kind).numbers.iter().enumerate();
        let wrong = fields.filter(|(index, field)| self.reads(kind, *index, field)).filter_map(|(index, field)| {
            let text = field.of(record);
            let is_land = field.sort == Sort::Code && *text == LAND;
            let read = misread(self.way, text);
            (!is_land && read != number(text)).then_some((index, read))
        });
        wrong.collect()
    }

    /// A file in which each number is spelled as it is read. A right judge then says what a wrong one would.
    fn respelled(&self, file: &[u8]) -> Vec<u8> {
        let mut file = file.to_vec();
        let mut kinds = dues(&file);
        for k in 0..file.len() / RECORD {
            let bytes = &mut file[k * RECORD..(k + 1) * RECORD];
            let misread = self.misread(kinds[k], bytes);
            for (index, read) in &misread {
                respell(bytes, &layout(kinds[k]).numbers[*index], *read);
            }
            if !misread.is_empty() {
                kinds = dues(&file);
            }
        }
        file
    }
}

/// A field as it is read: spelled rightly, or ill formed. A number that does not fit is left as it is.
fn respell(record: &mut [u8], field: &Field, read: Option<i32>) {
    match read.map(|number| spelled(number, field.width())) {
        None => set(record, field, &vec![b'x'; field.width()]),
        Some(Some(text)) => set(record, field, &text[..field.width()]),
        Some(None) => (),
    }
}

impl Product for Wrong {
    fn need(&self, file: &[u8]) -> u64 {
        if self.is("need") { Second.need(&self.respelled(file)) } else { Second.need(file) }
    }

    fn judge(&self, file: &[u8], table: &mut [u32], measures: &mut [i64]) -> Outcome {
        if !self.is("judge") {
            return Second.judge(file, table, measures);
        }
        let mut outcome = Second.judge(&self.respelled(file), table, measures);
        if outcome.refusal.number == 5 {
            outcome.refusal = self.misplaced(outcome.refusal, self.kind_at(file, outcome.refusal.record));
        }
        outcome
    }

    fn layer_sums(&self, file: &[u8], table: &mut [u32], layer: u32) -> (Refusal, Sums) {
        let file = if self.is("sums") { self.respelled(file) } else { file.to_vec() };
        Second.layer_sums(&file, table, layer)
    }

    fn all_sums(&self, file: &[u8], table: &mut [u32], sums: &mut [i64]) -> Outcome {
        let file = if self.is("all sums") { self.respelled(file) } else { file.to_vec() };
        Second.all_sums(&file, table, sums)
    }

    fn due(&self, file: &[u8], record: u32) -> u32 {
        if self.is("due") { Second.due(&self.respelled(file), record) } else { Second.due(file, record) }
    }

    fn position(&self, mesh: i32, x: i32, y: i32) -> (u32, f64, f64) {
        Second.position(mesh, x, y)
    }

    fn read_record(&self, kind: u32, bytes: &[u8]) -> (Refusal, RawValue) {
        if !self.is("reader") || bytes.len() != RECORD {
            return Second.read_record(kind, bytes);
        }
        let of_kind = KINDS[kind as usize - 1];
        let misread = self.misread(of_kind, bytes);
        let mut respelled = bytes.to_vec();
        for (index, read) in &misread {
            let field = &layout(of_kind).numbers[*index];
            let fits = read.filter(|number| spelled(*number, field.width()).is_some());
            respell(&mut respelled, field, read.map(|_| fits.unwrap_or(0)));
        }
        let (refusal, mut value) = Second.read_record(kind, &respelled);
        match refusal.number {
            0 => misread.iter().for_each(|(index, read)| value.numbers[*index] = read.expect("it is taken")),
            5 if self.way == "a value when refused" => value.numbers[0] = 1,
            _ => (),
        }
        (self.misplaced(refusal, of_kind), value)
    }

    fn write_record(&self, value: RawValue, buffer: &mut [u8]) -> u32 {
        let before = buffer.to_vec();
        let number = Second.write_record(value, buffer);
        if !self.is("writer") || number != 0 {
            return number;
        }
        let kind = KINDS[value.kind as usize - 1];
        for (field, number) in layout(kind).numbers.iter().zip(value.numbers) {
            let width = field.width();
            let text = match self.way {
                "zeros in front" => format!("{number:0width$}"),
                "digits at the left" => format!("{number:<width$}"),
                "a plus sign" if shown(number).len() < width => format!("{number:+width$}"),
                "the sign is lost" => format!("{:width$}", number.abs()),
                "the sign stands first" if number < 0 => format!("-{:1$}", number.abs(), width - 1),
                "0 is spaces" if number == 0 => " ".repeat(width),
                "-0" if number == 0 && width > 1 => format!("{:>width$}", "-0"),
                "the largest is refused" if shown(number) == vec![b'9'; width] => {
                    buffer.copy_from_slice(&before);
                    return 20;
                }
                _ => continue,
            };
            set(buffer, field, text.as_bytes());
        }
        0
    }
}

/// A wrong program whose writer gives back what it has read, so that both ways of RULES 9.9 hold.
struct Remembering {
    wrong: Wrong,
    last: Mutex<Option<(RawValue, Vec<u8>)>>,
}

impl Product for Remembering {
    fn need(&self, file: &[u8]) -> u64 {
        self.wrong.need(file)
    }

    fn judge(&self, file: &[u8], table: &mut [u32], measures: &mut [i64]) -> Outcome {
        self.wrong.judge(file, table, measures)
    }

    fn layer_sums(&self, file: &[u8], table: &mut [u32], layer: u32) -> (Refusal, Sums) {
        self.wrong.layer_sums(file, table, layer)
    }

    fn all_sums(&self, file: &[u8], table: &mut [u32], sums: &mut [i64]) -> Outcome {
        self.wrong.all_sums(file, table, sums)
    }

    fn due(&self, file: &[u8], record: u32) -> u32 {
        self.wrong.due(file, record)
    }

    fn position(&self, mesh: i32, x: i32, y: i32) -> (u32, f64, f64) {
        self.wrong.position(mesh, x, y)
    }

    fn read_record(&self, kind: u32, bytes: &[u8]) -> (Refusal, RawValue) {
        let (refusal, value) = self.wrong.read_record(kind, bytes);
        *self.last.lock().expect("one thread alone") = Some((value, bytes.to_vec()));
        (refusal, value)
    }

    fn write_record(&self, value: RawValue, buffer: &mut [u8]) -> u32 {
        match &*self.last.lock().expect("one thread alone") {
            Some((last, bytes)) if *last == value => {
                buffer[..RECORD].copy_from_slice(bytes);
                0
            }
            _ => self.wrong.write_record(value, buffer),
        }
    }
}

impl Wrong {
    /// A refusal as a program gives it that reads numbers rightly and tells of them wrongly.
    fn misplaced(&self, refusal: Refusal, kind: Kind) -> Refusal {
        let Refusal { number, record, column } = refusal;
        let mut fields = layout(kind).numbers.iter().enumerate().filter(|(index, field)| self.reads(kind, *index, field));
        match (self.way, fields.find(|(_, field)| field.start == column as usize)) {
            ("refused at its end", Some((_, field))) if number == 5 => Refusal { number, record, column: field.end as u32 },
            ("refused with 6", Some(_)) if number == 5 => Refusal { number: 6, record, column },
            _ => refusal,
        }
    }

    fn kind_at(&self, file: &[u8], record: u32) -> Kind {
        dues(file)[record as usize - 1]
    }
}

// The parts as the short run makes them.

fn in_records(compare: &mut Compare) -> Agreed {
    every_text(compare, 300_000)
}

fn in_files(compare: &mut Compare) -> Agreed {
    texts_in_files(compare, false)
}

#[track_caller]
fn is_found(part: fn(&mut Compare) -> Agreed, wrong: Wrong) {
    let Err(disagreement) = part(&mut Compare::new(&wrong)) else {
        panic!("{}: {}, {:?}", wrong.call, wrong.way, wrong.only);
    };
    println!("{}: {}: {}, {}", wrong.call, wrong.way, disagreement.what, disagreement.theirs);
}

/// Each of these ways is found where one call reads so.
fn are_found(part: fn(&mut Compare) -> Agreed, call: &'static str, ways: &[&'static str]) {
    ways.iter().for_each(|way| is_found(part, Wrong { call, way, only: Only::All }));
}

/// Each number field of every kind.
fn number_fields() -> impl Iterator<Item = (Kind, usize)> {
    KINDS.into_iter().flat_map(|kind| (0..layout(kind).numbers.len()).map(move |index| (kind, index)))
}

#[test]
fn a_right_program_agrees() {
    let compare = &mut Compare::new(&Second);
    in_records(compare).unwrap();
    in_files(compare).unwrap();
    for texts in &compare.texts {
        println!("{texts:?}");
        assert_eq!((texts.miscounted(), texts.missing()), (None, None));
        assert_eq!(texts.taken, texts.well_formed);
    }
}

#[test]
fn the_wrong_program_agrees_where_nothing_is_wrong() {
    let right = Wrong { call: "every call", way: "none", only: Only::All };
    let compare = &mut Compare::new(&right);
    in_records(compare).and_then(|()| in_files(compare)).unwrap();
}

#[test]
fn wrong_readers_are_found() {
    are_found(in_records, "reader", &WAYS.map(|(way, _)| way));
    are_found(in_records, "reader", &["a value when refused"]);
}

#[test]
fn wrong_readers_of_one_width_are_found() {
    for (way, least) in WAYS {
        for width in least..=WIDEST {
            is_found(in_records, Wrong { call: "reader", way, only: Only::Width(width) });
        }
    }
}

/// Where both programs read in the same wrong way, and write so too, what is told of texts a third time shows it.
#[test]
fn two_wrong_readers_are_found() {
    for way in WAYS.iter().map(|(way, _)| *way).chain(["a value when refused"]) {
        let wrong = Wrong { call: "reader", way, only: Only::All };
        let [one, other] = [(); 2].map(|()| Remembering { wrong, last: Mutex::new(None) });
        let compare = &mut Compare::new(&one);
        compare.own = &other;
        let Err(disagreement) = in_records(compare) else { panic!("{way}") };
        println!("{way}: {}, {}", disagreement.what, disagreement.ours);
        assert_eq!(disagreement.theirs, "the same");
    }
}

#[test]
fn a_wrong_reader_of_one_field_is_found() {
    for (kind, index) in number_fields() {
        is_found(in_records, Wrong { call: "reader", way: "spaces alone are 0", only: Only::Field(kind, index) });
    }
}

#[test]
fn wrong_writers_are_found() {
    let ways = [
        "zeros in front", "digits at the left", "a plus sign", "the sign is lost", "the sign stands first", "0 is spaces", "-0",
        "the largest is refused",
    ];
    are_found(in_records, "writer", &ways);
    for way in ways {
        let wrong = Wrong { call: "writer", way, only: Only::All };
        let compare = &mut Compare::new(&wrong);
        compare.own = &wrong;
        let Err(disagreement) = in_records(compare) else { panic!("{way}") };
        println!("{way}: {}, {}", disagreement.what, disagreement.ours);
    }
}

#[test]
fn wrong_judges_are_found() {
    are_found(in_files, "judge", &WAYS.map(|(way, _)| way));
}

#[test]
fn wrong_judges_of_one_width_are_found() {
    for way in ["a plus sign is taken", "leading zeros are taken", "spaces alone are 0", "a tab is a space", "O is 0"] {
        let (_, least) = WAYS.into_iter().find(|(other, _)| *other == way).expect("it is one of the ways");
        for width in least..=WIDEST {
            is_found(in_files, Wrong { call: "judge", way, only: Only::Width(width) });
        }
    }
}

#[test]
fn wrong_needs_sums_and_dues_are_found() {
    let ways = [
        "a plus sign is taken", "leading zeros are taken", "-0 is 0", "zeros behind the sign are taken", "spaces alone are 0",
        "a sign alone is 0", "a tab is a space", "spaces behind the digits are taken", "spaces behind the sign are taken",
        "spaces between digits are taken", "the first column is not looked at", "\":\" is a digit", "\"/\" is a digit",
        "the sign is lost",
    ];
    for call in ["need", "sums", "all sums"] {
        are_found(in_files, call, &ways);
    }
    // What is due goes by the size of a number, and 0 where it is ill formed.
    let zero = ["-0 is 0", "spaces alone are 0", "a sign alone is 0", "the sign is lost"];
    let ways: Vec<&str> = ways.into_iter().filter(|way| !zero.contains(way)).collect();
    are_found(in_files, "due", &ways);
}

#[test]
fn a_wrong_judge_of_one_field_is_found() {
    for (kind, index) in number_fields() {
        let wrong = Wrong { call: "judge", way: "spaces alone are 0", only: Only::Field(kind, index) };
        let compare = &mut Compare::new(&wrong);
        assert!(fields_in_files(compare, &sheet_s().records(), kind as usize - 1, true).is_err(), "{kind:?} {index}");
    }
}

// The third count.

#[test]
fn the_formula_counts_spellings() {
    for width in 1..=WIDEST {
        let numbers = 1 - 10i64.pow(width as u32 - 1)..10i64.pow(width as u32);
        let spellings: Vec<String> = numbers.map(|number| format!("{number:width$}")).collect();
        assert!(spellings.iter().all(|text| text.len() == width));
        assert_eq!(spellings.len() as u64, well_formed(10, width));
        for size in [4, 5, 8, 12, 15, 24, 31, 66, 256] {
            let bytes = alphabet(size);
            let of_these = spellings.iter().filter(|text| text.bytes().all(|byte| bytes.contains(&byte))).count();
            let digits = bytes.iter().filter(|byte| byte.is_ascii_digit()).count() as u64;
            assert_eq!(of_these as u64, well_formed(digits, width), "{size} {width}");
        }
    }
}

#[test]
fn every_width_has_a_field() {
    let mut widths: Vec<usize> = number_fields().map(|(kind, index)| layout(kind).numbers[index].width()).collect();
    widths.sort();
    widths.dedup();
    assert!(widths.into_iter().eq(1..=WIDEST));
    for (width, (kind, index)) in (1..).zip(OF_EACH_WIDTH) {
        let field = layout(kind).numbers[index];
        assert_eq!((field.width(), field.sort), (width, Sort::Number));
    }
}

#[test]
fn an_alphabet_has_each_byte_once() {
    for size in 4..=256 {
        let mut bytes = alphabet(size);
        assert!(bytes.starts_with(b" -01"));
        bytes.sort();
        bytes.dedup();
        assert_eq!(bytes.len(), size);
    }
    let sizes = [1, 2, 3, 4, 5, 6].map(|width| alphabet_for(width, 300_000).len());
    assert_eq!(sizes, [256, 256, 66, 23, 12, 8]);
    assert_eq!(alphabet_for(6, 1024), b" -01");
}

#[test]
fn texts_are_read_off() {
    let texts: [(&[u8], Result<i32, &str>); 27] = [
        (b"0", Ok(0)), (b"     0", Ok(0)), (b"   -1", Ok(-1)), (b"-99999", Ok(-99_999)), (b"999999", Ok(999_999)),
        (b"  ", Err("refused for spaces alone")), (b"    -", Err("a sign alone")), (b"00001", Err("a leading zero")),
        (b"00", Err("a leading zero")), (b"   -0", Err("\"-0\"")), (b"-01", Err("a zero behind the sign")),
        (b"- 1", Err("a space behind the sign")), (b" --1", Err("two signs")), (b" 1-", Err("a sign behind digits")),
        (b"1 1", Err("a space between digits")), (b"-1 1", Err("a space between digits")),
        (b"1  ", Err("spaces behind the digits")), (b" +1", Err("a plus sign")), (b"\t1", Err("a tab for a space")),
        (b"1/", Err("\"/\" for a digit")), (b"-:1", Err("\":\" for a digit")), (b"+", Err("another byte")),
        (b" x", Err("another byte")), (b"-x", Err("another byte")), (b"0 ", Err("spaces behind the digits")),
        (b"\t", Err("another byte")),
        (b"1 x", Err("another byte")),
    ];
    for (text, expected) in texts {
        assert_eq!(read_off(text).map_err(|why| TEXTS_BECAME[why as usize].0), expected, "{}", text.escape_ascii());
    }
}

#[test]
fn a_wrong_count_and_a_text_that_is_missing_are_told() {
    let compare = &mut Compare::new(&Second);
    every_text(compare, 5000).unwrap();
    let texts = compare.texts[0];
    assert_eq!((texts.miscounted(), texts.missing()), (None, None));
    for width in 1..=WIDEST {
        for more in [1, u64::MAX] {
            let mut other = texts;
            other.taken[width - 1] = other.taken[width - 1].wrapping_add(more);
            assert!(other.miscounted().unwrap().contains(&format!("width {width} ")));
        }
        for (place, (what, least)) in TEXTS_BECAME.iter().enumerate() {
            let mut other = texts;
            other.became[place][width - 1] = 0;
            assert_eq!(other.missing().is_some(), *least <= width, "{what}");
        }
    }
    assert!(Texts::default().missing().is_some());
    assert_eq!(Texts::sum([texts, Texts::default()].iter()), texts);
    assert_eq!(Texts::sum([texts, texts].iter()).tried, texts.tried.map(|tried| 2 * tried));
}

#[test]
fn a_wrong_count_ends_the_part() {
    let compare = &mut Compare::new(&Second);
    compare.texts[0].taken[2] = 1;
    assert!(every_text(compare, 5000).unwrap_err().what.contains("width 3 "));
    let compare = &mut Compare::new(&Second);
    compare.texts[1].well_formed[5] = 1;
    assert!(every_text(compare, 5000).unwrap_err().what.contains("width 6 "));
}

#[test]
fn the_longer_sheet_is_accepted() {
    assert_accepted(&longer_s());
    assert_eq!(longer_s().records().len(), 45);
}

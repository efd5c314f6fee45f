//! Wrong answers about unstructured layers, letters and rows are found by the comparison.

mod parts;

use parts::{are_found, compared};
use second::compare::{letters_over, Compare};
use second::damage::{set, told_areas};
use second::due::dues;
use second::fields::{number, CODE, LAND};
use second::judge::{verdict, Outcome, Verdict};
use second::layout::{codes, h, l, layout, Kind, KINDS, LAYER, RECORD, STRUCTURED, UNSTRUCTURED};
use second::product::{Product, RawValue, Second};
use second::records::{letters, Refusal};
use second::sums::{answer, answer_for_all, Sums};
use second::walk::record;

/// This program with one call made wrong: "call: what is wrong".
struct Wrong(&'static str);

impl Wrong {
    /// What is wrong about a call, if it is this one.
    fn about(&self, call: &str) -> Option<&'static str> {
        self.0.strip_prefix(call)?.strip_prefix(": ")
    }
}

// Rules that are left out under an H1, and refusals with another number or place.

/// The refusal that is left out, the kind of record and the columns.
type LeftOut = (&'static str, u32, Kind, &'static [u32]);

const SLOTS: [u32; 9] = [26, 31, 36, 41, 46, 51, 56, 61, 66];
const POINTS: [u32; 14] = [1, 6, 11, 16, 21, 26, 31, 36, 41, 46, 51, 56, 61, 66];

const LEFT_OUT: [LeftOut; 39] = [
    ("judge: areas under H1", 6, Kind::H, &[15]),
    ("judge: a left code under H1", 6, Kind::L, &[30]),
    ("judge: a left area under H1", 6, Kind::L, &[35]),
    ("judge: a right code under H1", 6, Kind::L, &[40]),
    ("judge: a right area under H1", 6, Kind::L, &[45]),
    ("judge: any text as areas", 5, Kind::H, &[15]),
    ("judge: any text as a left code", 5, Kind::L, &[30]),
    ("judge: any text as a left area", 5, Kind::L, &[35]),
    ("judge: any text as a right code", 5, Kind::L, &[40]),
    ("judge: any text as a right area", 5, Kind::L, &[45]),
    ("judge: a layer code of H1", 6, Kind::H, &[3]),
    ("judge: an H1 out of step", 8, Kind::H, &[3]),
    ("judge: nodes of H1", 6, Kind::H, &[5]),
    ("judge: lines of H1", 6, Kind::H, &[10]),
    ("judge: points of H1", 6, Kind::H, &[20]),
    ("judge: dates of H1", 6, Kind::H, &[31, 36]),
    ("judge: a node of another layer", 8, Kind::N, &[3]),
    ("judge: a node's item", 6, Kind::N, &[5]),
    ("judge: a node's serial", 8, Kind::N, &[7]),
    ("judge: a node's place", 6, Kind::N, &[12, 17]),
    ("judge: a node's frame", 6, Kind::N, &[22]),
    ("judge: a node's count", 6, Kind::N, &[24]),
    ("judge: a node's slots", 6, Kind::N, &SLOTS),
    ("judge: a line of another layer", 8, Kind::L, &[3]),
    ("judge: a line's item", 6, Kind::L, &[5]),
    ("judge: a line's serial", 8, Kind::L, &[7]),
    ("judge: a line's kind", 6, Kind::L, &[12]),
    ("judge: a line's links", 6, Kind::L, &[23, 29]),
    ("judge: a line's points", 6, Kind::L, &[50]),
    ("judge: unused columns of a line", 6, Kind::L, &[56, 58]),
    ("judge: coordinates", 6, Kind::Coordinates, &POINTS),
    ("judge: records of H1", 10, Kind::H, &[25]),
    ("judge: a node's entries name nothing", 11, Kind::N, &SLOTS),
    ("judge: a line's nodes name nothing", 11, Kind::L, &[18, 24]),
    ("judge: a node's entries disagree", 12, Kind::N, &SLOTS),
    ("judge: a line's links disagree", 12, Kind::L, &[23, 29]),
    ("judge: a line's first and last point disagree", 12, Kind::Coordinates, &POINTS),
    ("judge: a node's entries repeat", 13, Kind::N, &SLOTS),
    ("judge: a line's ends are not listed", 14, Kind::L, &[18, 24]),
];

/// A refusal as a wrong judge gives it.
fn misplaced(wrong: &str, file: &[u8], kinds: &[Kind], refusal: Refusal) -> Refusal {
    let Refusal { number, record: k, column } = refusal;
    let Some(kind) = kinds.get((k as usize).wrapping_sub(1)).copied() else {
        return refusal;
    };
    let bytes = record(file, k as usize);
    let under = letters_over(file, kinds, k as usize) == UNSTRUCTURED;
    let left_out = |(name, out, of, columns): &LeftOut| {
        name.strip_prefix("judge: ") == Some(wrong) && (*out, *of) == (number, kind) && columns.contains(&column)
    };
    if under && LEFT_OUT.iter().any(left_out) {
        return Refusal::default();
    }
    let head = (1..=k).rev().find(|k| kinds[*k as usize - 1] == Kind::H).unwrap_or(0);
    let side = under && number == 6 && kind == Kind::L && [30, 35, 40, 45].contains(&column);
    let area = side && [35, 45].contains(&column);
    let code = side && !area;
    let areas = under && (number, kind, column) == (6, Kind::H, 15);
    let other = |number, record, column| Refusal { number, record, column };
    match wrong {
        "7 for H1" if number == 3 && kind == Kind::H && bytes.starts_with(b"H1") => other(7, k, 1),
        "7 for H3" if number == 3 && kind == Kind::H && bytes.starts_with(b"H") => other(7, k, 1),
        "7 for areas" if areas => other(7, k, 1),
        "7 for H1 elsewhere" if number == 3 && bytes.starts_with(b"H1") => other(7, k, 1),
        "6 for H3" if number == 3 && kind == Kind::H => other(6, k, 1),
        "areas at the letters" if areas => other(6, k, 1),
        "areas are a total" if areas => other(10, k, 15),
        "areas are out of step" if areas => other(8, k, 15),
        "areas are ill formed" if areas => other(5, k, 15),
        "an area names nothing" if area => other(11, k, column),
        "a code disagrees" if code => other(12, k, column),
        "an area at its code" if area => other(6, k, column - 5),
        "a code at its area" if code => other(6, k, column + 5),
        "a right side at the left" if side && column >= 40 => other(6, k, column - 10),
        "a side at the letters" if side => other(6, k, 1),
        "a side at the H" if side => other(6, head, 1),
        "a side at the areas" if side => other(6, head, 15),
        "a side is out of step" if side => other(8, k, column),
        "a side is ill formed" if side => other(5, k, column),
        "areas in an M of lines alone" if (number, kind, column) == (10, Kind::M, 42) => {
            let after = kinds.iter().zip(1..).skip(k as usize).find(|(kind, _)| **kind == Kind::H);
            let lines = after.is_some_and(|(_, k)| letters(Kind::H, record(file, k)) == Some(UNSTRUCTURED));
            if lines { Refusal::default() } else { refusal }
        }
        _ => refusal,
    }
}

// Files that are taken for other ones.

/// An H, with what is known of the letters before it: 0 where there are none.
struct Head<'a> {
    letters: &'a [u8],
    layer: Option<i32>,
    areas: Option<i32>,
    lines: Option<i32>,
    /// The letters of the file's first layer, of the mesh's first one and of the layer before.
    first: u32,
    in_mesh: u32,
    before: u32,
}

/// How a wrong judge takes the letters of an H: as these, if it does not take them as they stand.
fn lettered_as(wrong: &str, head: &Head) -> Option<&'static [u8; 2]> {
    let is = |letters: &[u8; 2]| head.letters == letters;
    let like = |letters: u32| if letters == UNSTRUCTURED { b"H1" } else { b"H2" };
    let (yes, taken) = match wrong {
        "H1 is refused" | "7 for H1" => (is(b"H1"), b"H3"),
        "H1 is H2" => (is(b"H1"), b"H2"),
        "H2 is H1" => (is(b"H2"), b"H1"),
        "H2 is refused" => (is(b"H2"), b"H3"),
        "H3 is H1" => (is(b"H3"), b"H1"),
        "H3 is H2" => (is(b"H3"), b"H2"),
        "H0 is H1" => (is(b"H0"), b"H1"),
        "H alone is H1" => (is(b"H "), b"H1"),
        "h1 is H1" => (is(b"h1"), b"H1"),
        "1H is H1" => (is(b"1H"), b"H1"),
        "the first letter alone" => (head.letters.starts_with(b"H") && !is(b"H2"), b"H1"),
        "the second letter alone" => (head.letters.ends_with(b"1"), b"H1"),
        "H1 with areas is H2" => (is(b"H1") && head.areas != Some(0), b"H2"),
        "H2 without areas is H1" => (is(b"H2") && head.areas == Some(0), b"H1"),
        "H2 without areas but with lines is refused" => (is(b"H2") && head.areas == Some(0) && head.lines != Some(0), b"H3"),
        "H1 without lines is refused" => (is(b"H1") && head.lines == Some(0), b"H3"),
        "H1 in layer 1 is refused" => (is(b"H1") && head.layer == Some(1), b"H3"),
        "H1 in layer 5 is refused" => (is(b"H1") && head.layer == Some(5), b"H3"),
        "H1 as the file's first layer is refused" => (is(b"H1") && head.first == 0, b"H3"),
        "H1 behind a layer of the file is refused" => (is(b"H1") && head.first != 0, b"H3"),
        "H1 behind H2 in a mesh is refused" => (is(b"H1") && head.in_mesh == STRUCTURED, b"H3"),
        "H2 behind H1 in a mesh is refused" => (is(b"H2") && head.in_mesh == UNSTRUCTURED, b"H3"),
        "H1 behind H1 in a mesh is refused" => (is(b"H1") && head.in_mesh == UNSTRUCTURED, b"H3"),
        "H2 behind H1 in a file is refused" => (is(b"H2") && head.before == UNSTRUCTURED, b"H3"),
        "letters of the file's first layer" => (head.first != 0, like(head.first)),
        "letters of the mesh's first layer" => (head.in_mesh != 0, like(head.in_mesh)),
        "letters of the layer before" => (head.before != 0, like(head.before)),
        "H1 once is H1 for good" => (head.before == UNSTRUCTURED && is(b"H2"), b"H1"),
        _ => (false, b"H1"),
    };
    yes.then_some(taken)
}

/// Land, a text that is ill formed, and a number that is well formed and not permitted.
const ZERO: &[u8; CODE] = b"    0";
const ILL: &[u8; CODE] = b"00000";
const OTHER: &[u8; CODE] = b"   -1";

/// How a wrong judge takes a number that tells of areas under an H1: as this text, if it does not take it as it stands.
fn told_as(wrong: &str, kind: Kind, record: &[u8], index: usize) -> Option<&'static [u8; CODE]> {
    let text_of = |index: usize| layout(kind).numbers[index].of(record);
    let text = text_of(index);
    let told = number(text);
    let above = told.is_some_and(|told| told > 0);
    let below = told.is_some_and(|told| told < 0);
    let layer = number(LAYER.of(record));
    let side = kind == Kind::L;
    let code = codes(kind).contains(&index);
    let area = side && !code;
    let beside = |code: usize, area: usize| [code, area].iter().all(|index| number(text_of(*index)).is_some_and(|told| told != 0));
    let late = side && number(text_of(l::SERIAL)) != Some(1);
    let (yes, taken) = match wrong {
        "nobody under H1" => (code && text == b"88888", ZERO),
        "nobody alone under H1" if text != b"88888" => (code && told == Some(0), OTHER),
        "nobody alone under H1" => (code, ZERO),
        "a code beside an area" if !side => (false, ZERO),
        "a code beside an area" if index < l::RIGHT_CODE => (beside(l::LEFT_CODE, l::LEFT_AREA), ZERO),
        "a code beside an area" => (beside(l::RIGHT_CODE, l::RIGHT_AREA), ZERO),
        "one code on both sides" => (code && told.is_some() && text_of(l::LEFT_CODE) == text_of(l::RIGHT_CODE), ZERO),
        "one area on both sides" => (area && told.is_some() && text_of(l::LEFT_AREA) == text_of(l::RIGHT_AREA), ZERO),
        "what is below 0" => (below, ZERO),
        "what is above 0" => (above, ZERO),
        "an area below 0" => (area && below, ZERO),
        "areas below 0" => (kind == Kind::H && below, ZERO),
        "one area" => (kind == Kind::H && told == Some(1), ZERO),
        "sides in layer 1" => (side && told.is_some() && layer == Some(1), ZERO),
        "sides in layer 5" => (side && told.is_some() && layer == Some(5), ZERO),
        "sides behind the first line" => (late && told.is_some(), ZERO),
        "sides of the first line" => (side && told.is_some() && !late, ZERO),
        "spaces are 0" => (text == b"     ", ZERO),
        "five zeros are 0" => (text == b"00000", ZERO),
        "land is refused under H1" => (code && text == LAND, ILL),
        "land is not 0 under H1" => (code && text == LAND && layer == Some(5), OTHER),
        "land on the left alone" => (index == l::RIGHT_CODE && code && text == LAND, ILL),
        "land on the right alone" => (index == l::LEFT_CODE && code && text == LAND, ILL),
        "land in layer 1 under H1" => (code && text == LAND && layer == Some(1), ZERO),
        "land is an area under H1" => (area && text == LAND, ZERO),
        "land is the areas of H1" => (kind == Kind::H && text == LAND, ZERO),
        "land as 0 is refused under H1" => (code && text == ZERO && layer == Some(5), OTHER),
        "0 is refused in layer 1" => (code && text == ZERO && layer == Some(1), OTHER),
        "0 beside 0 is refused" => (area && text == ZERO && layer == Some(5), OTHER),
        _ => (false, ZERO),
    };
    yes.then_some(taken)
}

/// A file as a wrong judge takes it.
fn mistaken(wrong: &str, file: &[u8]) -> Vec<u8> {
    let mut taken = file.to_vec();
    let (mut first, mut in_mesh, mut before, mut under) = (0, 0, 0, 0);
    for ((bytes, record), kind) in taken.chunks_exact_mut(RECORD).zip(file.chunks_exact(RECORD)).zip(dues(file)) {
        if kind == Kind::M {
            (in_mesh, under) = (0, 0);
        }
        if kind == Kind::H {
            let told = |index: usize| number(layout(kind).numbers[index].of(record));
            let [layer, areas, lines] = [h::LAYER, h::AREAS, h::LINES].map(told);
            let head = Head { letters: &record[..2], layer, areas, lines, first, in_mesh, before };
            if let Some(letters) = lettered_as(wrong, &head) {
                bytes[..2].copy_from_slice(letters);
            }
            under = letters(kind, record).unwrap_or(0);
            before = under;
            first = if first == 0 { under } else { first };
            in_mesh = if in_mesh == 0 { under } else { in_mesh };
        }
        for index in told_areas(kind).iter().filter(|_| under == UNSTRUCTURED) {
            if let Some(text) = told_as(wrong, kind, record, *index) {
                set(bytes, &layout(kind).numbers[*index], text);
            }
        }
    }
    taken
}

// Tables, counts, measures and sums.

/// A table as a wrong judge fills it.
fn mistabled(wrong: &str, verdict: &Verdict) -> Vec<u32> {
    let table = &verdict.table;
    let (rows, rest) = table.split_at((5 * verdict.layers).min(table.len()));
    let rows: Vec<[u32; 5]> = rows.chunks_exact(5).map(|row| row.try_into().expect("five words")).collect();
    let rest = rest.to_vec();
    let mapped = |row: fn([u32; 5]) -> Vec<u32>| [rows.iter().copied().flat_map(row).collect(), rest.clone()].concat();
    let letters: Vec<u32> = rows.iter().map(|row| row[4]).collect();
    let relettered = |letters: Vec<u32>| {
        let row = |(row, letters): (&[u32; 5], u32)| [row[0], row[1], row[2], row[3], letters];
        [rows.iter().zip(letters).flat_map(row).collect(), rest.clone()].concat()
    };
    let short = || rows.iter().flat_map(|row| row[..4].to_vec()).collect::<Vec<u32>>();
    let lines_of = |letters: u32| {
        let all = rows.iter().flat_map(|row| vec![row[4]; row[2] as usize]).zip(&rest);
        all.filter(move |(of, _)| *of == letters).map(|(_, record)| *record).collect::<Vec<u32>>()
    };
    let by_letters = |letters: u32| rows.iter().filter(move |row| row[4] == letters).flatten().copied().collect::<Vec<u32>>();
    let lines: usize = rows.iter().map(|row| row[2] as usize).sum();
    match wrong {
        "rows of four words" => [short(), rest].concat(),
        "letters are 0" => relettered(letters.iter().map(|_| 0).collect()),
        "letters are 1" => relettered(letters.iter().map(|_| 1).collect()),
        "letters are 2" => relettered(letters.iter().map(|_| 2).collect()),
        "letters turned round" => relettered(letters.iter().map(|letters| 3 - letters).collect()),
        "letters are signs" => relettered(letters.iter().map(|letters| letters + 48).collect()),
        "letters count from 0" => relettered(letters.iter().map(|letters| letters - 1).collect()),
        "letters say unstructured" => relettered(letters.iter().map(|letters| u32::from(*letters == 1)).collect()),
        "letters of the first row" => relettered(vec![letters.first().copied().unwrap_or(0); letters.len()]),
        "letters of the row before" => {
            let before = letters.first().copied().into_iter().chain(letters.iter().copied());
            relettered(before.take(letters.len()).collect())
        }
        "letters by areas" => relettered(rows.iter().map(|row| if row[3] == 0 { 1 } else { 2 }).collect()),
        "letters in front" => mapped(|row| vec![row[4], row[0], row[1], row[2], row[3]]),
        "letters behind the record" => mapped(|row| vec![row[0], row[4], row[1], row[2], row[3]]),
        "letters before the areas" => mapped(|row| vec![row[0], row[1], row[2], row[4], row[3]]),
        "letters behind all rows" => [short(), letters, rest].concat(),
        "letters at the end" => [short(), rest, letters].concat(),
        "letters when accepted alone" if verdict.late.number != 0 => relettered(letters.iter().map(|_| 0).collect()),
        "lines are the areas of an H1" => {
            mapped(|row| vec![row[0], row[1], row[2], if row[4] == 1 { row[2] } else { row[3] }, row[4]])
        }
        "an H1 has no lines" => {
            let bare = |row: &[u32; 5]| [row[0], row[1], if row[4] == 1 { 0 } else { row[2] }, row[3], row[4]];
            [rows.iter().flat_map(bare).collect(), lines_of(STRUCTURED), rest[lines..].to_vec()].concat()
        }
        "structured layers first" => [by_letters(STRUCTURED), by_letters(UNSTRUCTURED), rest].concat(),
        "lines of structured layers first" => {
            let rows = rows.iter().flatten().copied().collect();
            [rows, lines_of(STRUCTURED), lines_of(UNSTRUCTURED), rest[lines..].to_vec()].concat()
        }
        "an H1 has no row" => [by_letters(STRUCTURED), rest].concat(),
        "no lines of an H1 behind the rows" => {
            let rows = rows.iter().flatten().copied().collect();
            [rows, lines_of(STRUCTURED), rest[lines..].to_vec()].concat()
        }
        _ => table.clone(),
    }
}

/// The letters, nodes and lines of each layer.
fn layers(verdict: &Verdict) -> Vec<[u32; 3]> {
    verdict.table.chunks_exact(5).take(verdict.layers).map(|row| [row[4], row[1], row[2]]).collect()
}

/// The measure of all lines of each layer of an accepted file, by the coordinates that stand there.
fn drawn(file: &[u8], verdict: &Verdict) -> Vec<i64> {
    let mut sums = Vec::new();
    let mut last = None;
    let mut left = 0;
    for (k, kind) in (1..).zip(&verdict.kinds) {
        let told = |index: usize| number(layout(*kind).numbers[index].of(record(file, k))).unwrap_or(0);
        match kind {
            Kind::H => sums.push(0),
            Kind::L => (last, left) = (None, told(l::POINTS)),
            Kind::Coordinates => {
                for point in 0..left.min(7) as usize {
                    let here = (i64::from(told(2 * point)), i64::from(told(2 * point + 1)));
                    if let (Some((x, y)), Some(sum)) = (last, sums.last_mut()) {
                        *sum += here.0 * y - x * here.1;
                    }
                    last = Some(here);
                }
                left -= 7;
            }
            _ => (),
        }
    }
    sums
}

/// What a wrong judge says of an accepted file.
fn misjudged_counts(wrong: &str, file: &[u8], verdict: &mut Verdict) {
    let layers = layers(verdict);
    let of_lines = |index: usize| layers.iter().filter(|layer| layer[0] == UNSTRUCTURED).map(|layer| layer[index]).sum::<u32>();
    let unstructured = layers.iter().filter(|layer| layer[0] == UNSTRUCTURED).count();
    let is_lines = |index: usize| layers[index][0] == UNSTRUCTURED;
    match wrong {
        "layers without H1" => verdict.counts.layers -= unstructured as u32,
        "nodes without H1" => verdict.counts.nodes -= of_lines(1),
        "lines without H1" => verdict.counts.lines -= of_lines(2),
        "lines of H1 are areas" => verdict.counts.areas += of_lines(2),
        "an H1 has a measure" => verdict.measures.extend(vec![0; unstructured]),
        "lines of H1 have measures" => verdict.measures.extend(vec![0; of_lines(2) as usize]),
        "an M counts no nodes of H1" if of_lines(1) > 0 => verdict.late = Refusal { number: 10, record: 1, column: 32 },
        "an M counts no lines of H1" if of_lines(2) > 0 => verdict.late = Refusal { number: 10, record: 1, column: 37 },
        "an M counts no layer of H1" if unstructured > 0 => verdict.early = Refusal { number: 6, record: 1, column: 29 },
        "an M counts no records of H1" if unstructured > 0 => verdict.late = Refusal { number: 10, record: 1, column: 52 },
        "all lines are outside" => {
            let drawn = drawn(file, verdict);
            (0..layers.len()).filter(|k| is_lines(*k)).for_each(|k| verdict.sums[k].outside = drawn[k]);
        }
        "all lines are inside" => {
            let drawn = drawn(file, verdict);
            (0..layers.len()).filter(|k| is_lines(*k)).for_each(|k| verdict.sums[k].areas = drawn[k]);
        }
        "the sums of the layer before" => {
            for k in (1..layers.len()).filter(|k| is_lines(*k)) {
                verdict.sums[k] = verdict.sums[k - 1];
            }
        }
        "the sums of the layer behind" => {
            for k in (1..layers.len()).rev().filter(|k| is_lines(*k - 1)) {
                verdict.sums[k - 1] = verdict.sums[k];
            }
        }
        "sums behind an H1 are 0" => {
            for k in (1..layers.len()).filter(|k| is_lines(*k - 1)) {
                verdict.sums[k] = Sums::default();
            }
        }
        "an H1 has no sums" => {
            let kept = verdict.sums.iter().zip(&layers).filter(|(_, layer)| layer[0] == STRUCTURED);
            verdict.sums = kept.map(|(sums, _)| *sums).collect();
        }
        "an H1 ends the sums" => {
            let first = layers.iter().position(|layer| layer[0] == UNSTRUCTURED).unwrap_or(layers.len());
            verdict.sums.truncate(first);
        }
        _ => (),
    }
}

/// A wrong judge's verdict.
fn misjudged(wrong: &str, file: &[u8]) -> Verdict {
    let taken = mistaken(wrong, file);
    let mut verdict = verdict(&taken);
    for layer in 0..verdict.layers {
        let head = record(file, verdict.table[5 * layer] as usize);
        verdict.table[5 * layer + 4] = letters(Kind::H, head).unwrap_or(0);
    }
    verdict.early = misplaced(wrong, file, &verdict.kinds, verdict.early);
    verdict.late = misplaced(wrong, file, &verdict.kinds, verdict.late);
    if verdict.early == verdict.late {
        misjudged_counts(wrong, file, &mut verdict);
    }
    verdict.table = mistabled(wrong, &verdict);
    verdict
}

fn put_table(verdict: &Verdict, table: &mut [u32]) {
    if verdict.table_stands(table.len()) {
        table[..verdict.table.len()].copy_from_slice(&verdict.table);
    }
}

// Needs and what is due.

/// The words that a layer takes beyond its lines and areas, and its lines, as a wrong need counts them.
fn misneeded(wrong: &str, verdict: &Verdict) -> u64 {
    let need = verdict.need();
    let layers = layers(verdict);
    let unstructured = layers.iter().filter(|layer| layer[0] == UNSTRUCTURED);
    let (all, few) = (layers.len() as u64, unstructured.clone().count() as u64);
    let lines: u64 = unstructured.map(|layer| u64::from(layer[2])).sum();
    match wrong {
        "four words a layer" => need - all,
        "four words for H1" => need - few,
        "four words for H2" => need - (all - few),
        "six words a layer" => need + all,
        "six words for H1" => need + few,
        "no row for H1" => need - 5 * few,
        "no lines of H1" => need - lines,
        "areas for the lines of H1" => need + lines,
        "one word for the letters" => need - all.saturating_sub(1),
        _ => need,
    }
}

/// The file in which the H1 of each layer says what a wrong walk reads. A right walk then goes where a wrong one would.
fn misled(wrong: &str, file: &[u8]) -> Vec<u8> {
    let mut file = file.to_vec();
    let mut kinds = dues(&file);
    for k in 0..file.len() / RECORD {
        let bytes = &mut file[k * RECORD..(k + 1) * RECORD];
        let kind = kinds[k];
        let before = bytes.to_vec();
        let is_h1 = kind == Kind::H && bytes.starts_with(b"H1");
        let mut count = |index: usize, text: &[u8]| set(bytes, &layout(kind).numbers[index], text);
        match wrong {
            "no areas under H1" if is_h1 => count(h::AREAS, ZERO),
            "no nodes under H1" if is_h1 => count(h::NODES, ZERO),
            "no lines under H1" if is_h1 => count(h::LINES, ZERO),
            "nothing under H1" if is_h1 => [h::NODES, h::LINES, h::AREAS].iter().for_each(|index| count(*index, ZERO)),
            "nothing under H3" if kind == Kind::H && before[0] == b'H' && !b"12".contains(&before[1]) => {
                [h::NODES, h::LINES, h::AREAS].iter().for_each(|index| count(*index, ZERO));
            }
            "one area under H1" if is_h1 && number(layout(kind).numbers[h::AREAS].of(&before)) == Some(0) => {
                count(h::AREAS, b"    1");
            }
            _ => (),
        }
        if file[k * RECORD..(k + 1) * RECORD] != before {
            kinds = dues(&file);
        }
    }
    file
}

// Records.

/// A reading as a wrong reader gives it.
fn misread(wrong: &str, kind: Kind, bytes: &[u8], refusal: Refusal, value: RawValue) -> (Refusal, RawValue) {
    let is_h = kind == Kind::H && bytes.len() == RECORD;
    let is = |letters: &[u8; 2]| is_h && bytes.starts_with(letters);
    let good = refusal.number == 0;
    let refused = |number, column| (Refusal { number, record: 1, column }, Second.read_record(kind as u32, &[]).1);
    let with = |letters| (refusal, RawValue { letters, ..value });
    let read_as = |letters: &[u8; 2], told| {
        let mut bytes = bytes.to_vec();
        bytes[..2].copy_from_slice(letters);
        let (refusal, value) = Second.read_record(2, &bytes);
        (refusal, RawValue { letters: if refusal.number == 0 { told } else { 0 }, ..value })
    };
    let areas = value.numbers[h::AREAS];
    match wrong {
        "7 for H1" if is(b"H1") && refusal.number != 2 => refused(7, 1),
        "3 for H1" if is(b"H1") && refusal.number != 2 => refused(3, 1),
        "7 for H1 that is ill formed" if is(b"H1") && refusal.number == 5 => refused(7, 1),
        "7 for H3" if is_h && refusal.number == 3 && bytes[0] == b'H' => refused(7, 1),
        "7 where another kind is named" if refusal.number == 3 && bytes.starts_with(b"H1") => refused(7, 1),
        "H3 is read" if is(b"H3") => read_as(b"H2", 3),
        "H0 is read" if is(b"H0") => read_as(b"H2", 0),
        "h1 is read" if is(b"h1") => read_as(b"H1", 1),
        "any H is read" if is_h && bytes[0] == b'H' && refusal.number == 3 => read_as(b"H2", 2),
        "any letter before 1 is read" if is_h && bytes[1] == b'1' && refusal.number == 3 => read_as(b"H1", 1),
        "letters are lost" => with(0),
        "letters are 1" if value.letters != 0 => with(1),
        "letters are 2" if value.letters != 0 => with(2),
        "letters turned round" if value.letters != 0 => with(3 - value.letters),
        "letters are signs" if value.letters != 0 => with(value.letters + 48),
        "letters count from 0" if value.letters != 0 => with(value.letters - 1),
        "letters by areas" if value.letters != 0 => with(if areas == 0 { 1 } else { 2 }),
        "letters of every kind" if good && kind != Kind::H => with(2),
        "letters when refused" if is(b"H1") && !good => with(1),
        "letters of another kind" if refusal.number == 3 && bytes.starts_with(b"H1") => with(1),
        "letters as a mark" if value.letters == 1 => (refusal, RawValue { marks: [1, 0], ..value }),
        "areas are judged" if value.letters == 1 && areas != 0 => refused(6, 15),
        "areas are lost" if value.letters == 1 => {
            let mut lost = value;
            lost.numbers[h::AREAS] = 0;
            (refusal, lost)
        }
        _ => (refusal, value),
    }
}

/// A value as a wrong writer takes it, or the number that it answers.
fn miswritten(wrong: &str, value: RawValue, length: usize) -> Result<RawValue, u32> {
    let is_h = value.kind == 2;
    let with = |letters| Ok(RawValue { letters, ..value });
    let fits = Second.write_record(value, &mut [0; RECORD]) == 0;
    match wrong {
        "always H2" if is_h && fits => with(2),
        "always H1" if is_h && fits => with(1),
        "turned round" if is_h && fits => with(3 - value.letters),
        "letters by areas" if is_h && fits => with(if value.numbers[h::AREAS] == 0 { 1 } else { 2 }),
        "0 is H2" if is_h && value.letters == 0 => with(2),
        "0 is H1" if is_h && value.letters == 0 => with(1),
        "3 is H2" if is_h && value.letters == 3 => with(2),
        "anything else is H2" if is_h && value.letters != 1 => with(2),
        "signs are letters" if is_h && [49, 50].contains(&value.letters) => with(value.letters - 48),
        "letters are two bits" => with(value.letters & 3),
        "letters are a byte" => with(value.letters & 0xFF),
        "letters are half a word" => with(value.letters & 0xFFFF),
        "letters have a sign" => with(value.letters & 0x7FFF_FFFF),
        "no letters are wrong" if is_h => with(value.letters.clamp(1, 2)),
        "1 of another kind" if !is_h && value.letters == 1 => with(0),
        "2 of another kind" if !is_h && value.letters == 2 => with(0),
        "anything of another kind" if !is_h => with(0),
        "anything of a kind without letters" if [5, 7].contains(&value.kind) => with(0),
        "H1 is refused" if is_h && value.letters == 1 && fits && length >= RECORD => Err(20),
        "H1 with areas is refused" if is_h && value.letters == 1 && value.numbers[h::AREAS] != 0 && fits && length >= RECORD => {
            Err(20)
        }
        "letters before the buffer" if is_h && !(1..=2).contains(&value.letters) => Err(20),
        "letters of another kind before the buffer" if !is_h && value.letters != 0 => Err(20),
        "another number for letters" if is_h && !(1..=2).contains(&value.letters) && length >= RECORD => Err(3),
        _ => Ok(value),
    }
}

impl Product for Wrong {
    fn need(&self, file: &[u8]) -> u64 {
        let Some(wrong) = self.about("need") else { return Second.need(file) };
        misneeded(wrong, &verdict(file))
    }

    fn judge(&self, file: &[u8], table: &mut [u32], measures: &mut [i64]) -> Outcome {
        let Some(wrong) = self.about("judge") else { return Second.judge(file, table, measures) };
        let verdict = misjudged(wrong, file);
        let mut outcome = verdict.outcome(table.len(), measures.len());
        put_table(&verdict, table);
        if outcome.refusal.number == 0 && measures.len() >= verdict.measures.len() {
            measures[..verdict.measures.len()].copy_from_slice(&verdict.measures);
        }
        if outcome.refusal.number == 9 {
            outcome.need = misneeded(wrong, &verdict);
        }
        outcome
    }

    fn layer_sums(&self, file: &[u8], table: &mut [u32], layer: u32) -> (Refusal, Sums) {
        let Some(wrong) = self.about("sums") else { return Second.layer_sums(file, table, layer) };
        let verdict = misjudged(wrong, file);
        put_table(&verdict, table);
        let (refusal, sums) = answer(&verdict, table.len(), layer);
        let of_lines = layers(&verdict).get((layer as usize).wrapping_sub(1)).is_some_and(|layer| layer[0] == UNSTRUCTURED);
        match wrong {
            "22 for H1" if refusal.number == 0 && of_lines => (Refusal { number: 22, ..refusal }, sums),
            _ => (refusal, sums),
        }
    }

    fn all_sums(&self, file: &[u8], table: &mut [u32], sums: &mut [i64]) -> Outcome {
        let Some(wrong) = self.about("all sums") else { return Second.all_sums(file, table, sums) };
        let verdict = misjudged(wrong, file);
        put_table(&verdict, table);
        let before = sums.to_vec();
        let (mut outcome, found) = answer_for_all(&verdict, table.len(), sums.len());
        sums[..found.len()].copy_from_slice(&found);
        let layers = layers(&verdict);
        let structured = layers.iter().filter(|layer| layer[0] == STRUCTURED).count();
        match wrong {
            "no room for H1" if outcome.refusal.number == 48 && sums.len() >= 2 * structured => {
                outcome = verdict.outcome(table.len(), usize::MAX);
            }
            "places of H1 are untouched" if outcome.refusal.number == 0 => {
                for k in (0..layers.len()).filter(|k| layers[*k][0] == UNSTRUCTURED) {
                    sums[2 * k..2 * k + 2].copy_from_slice(&before[2 * k..2 * k + 2]);
                }
            }
            "22 for H1" if outcome.refusal.number == 0 && structured < layers.len() => outcome.refusal.number = 22,
            _ => (),
        }
        outcome
    }

    fn due(&self, file: &[u8], at: u32) -> u32 {
        let Some(wrong) = self.about("due") else { return Second.due(file, at) };
        let (kinds, k) = (dues(file), at as usize);
        let under = k > 0 && k <= file.len() / RECORD && letters_over(file, &kinds, k) == UNSTRUCTURED;
        match wrong {
            "nothing told of H1" if under => 0,
            "an H1 is no H" if under && kinds[k - 1] == Kind::H => 0,
            _ => Second.due(&misled(wrong, file), at),
        }
    }

    fn position(&self, mesh: i32, x: i32, y: i32) -> (u32, f64, f64) {
        Second.position(mesh, x, y)
    }

    fn read_record(&self, kind: u32, bytes: &[u8]) -> (Refusal, RawValue) {
        let (refusal, value) = Second.read_record(kind, bytes);
        let Some(wrong) = self.about("reader") else { return (refusal, value) };
        misread(wrong, KINDS[kind as usize - 1], bytes, refusal, value)
    }

    fn write_record(&self, value: RawValue, buffer: &mut [u8]) -> u32 {
        let Some(wrong) = self.about("writer") else { return Second.write_record(value, buffer) };
        match miswritten(wrong, value, buffer.len()) {
            Ok(taken) => {
                let number = Second.write_record(taken, buffer);
                let head = RawValue { letters: if value.kind == 2 { 2 } else { 0 }, ..value };
                if wrong == "writes before it looks at letters" && number == 20 {
                    Second.write_record(head, buffer);
                }
                number
            }
            Err(number) => number,
        }
    }
}

/// The program that is made wrong is right where none of the wrong answers is asked for.
#[test]
fn without_a_wrong_answer_it_agrees() {
    for call in ["need: none", "judge: none", "sums: none", "all sums: none", "due: none", "reader: none", "writer: none"] {
        compared(&mut Compare::new(&Wrong(call))).unwrap();
    }
}

#[test]
fn rules_left_out_are_found() {
    are_found(Wrong, &LEFT_OUT.map(|(wrong, ..)| wrong));
}

#[test]
fn wrong_numbers_and_places_are_found() {
    are_found(Wrong, &[
        "judge: 7 for H1", "judge: 7 for H3", "judge: 7 for areas", "judge: 7 for H1 elsewhere", "judge: 6 for H3",
        "judge: areas at the letters", "judge: areas are a total", "judge: areas are out of step", "judge: areas are ill formed",
        "judge: an area names nothing", "judge: a code disagrees", "judge: an area at its code", "judge: a code at its area",
        "judge: a right side at the left", "judge: a side at the letters", "judge: a side at the H",
        "judge: a side at the areas", "judge: a side is out of step", "judge: a side is ill formed",
        "judge: areas in an M of lines alone",
    ]);
}

#[test]
fn wrong_letters_are_found() {
    are_found(Wrong, &[
        "judge: H1 is refused", "judge: H1 is H2", "judge: H2 is H1", "judge: H2 is refused", "judge: H3 is H1",
        "judge: H3 is H2", "judge: H0 is H1", "judge: H alone is H1", "judge: h1 is H1", "judge: 1H is H1",
        "judge: the first letter alone", "judge: the second letter alone", "judge: H1 with areas is H2",
        "judge: H2 without areas is H1", "judge: H2 without areas but with lines is refused",
        "judge: H1 without lines is refused", "judge: H1 in layer 1 is refused", "judge: H1 in layer 5 is refused",
        "judge: H1 as the file's first layer is refused", "judge: H1 behind a layer of the file is refused",
        "judge: H1 behind H2 in a mesh is refused", "judge: H2 behind H1 in a mesh is refused",
        "judge: H1 behind H1 in a mesh is refused", "judge: H2 behind H1 in a file is refused",
        "judge: letters of the file's first layer", "judge: letters of the mesh's first layer",
        "judge: letters of the layer before", "judge: H1 once is H1 for good",
    ]);
}

#[test]
fn wrong_sides_are_found() {
    are_found(Wrong, &[
        "judge: nobody under H1", "judge: nobody alone under H1", "judge: a code beside an area",
        "judge: one code on both sides", "judge: one area on both sides", "judge: what is below 0", "judge: what is above 0",
        "judge: an area below 0", "judge: areas below 0", "judge: one area", "judge: sides in layer 1", "judge: sides in layer 5",
        "judge: sides behind the first line", "judge: sides of the first line", "judge: spaces are 0", "judge: five zeros are 0",
        "judge: land is refused under H1", "judge: land is not 0 under H1", "judge: land on the left alone",
        "judge: land on the right alone", "judge: land in layer 1 under H1", "judge: land is an area under H1",
        "judge: land is the areas of H1", "judge: land as 0 is refused under H1", "judge: 0 is refused in layer 1",
        "judge: 0 beside 0 is refused",
    ]);
}

#[test]
fn wrong_rows_are_found() {
    are_found(Wrong, &[
        "judge: rows of four words", "judge: letters are 0", "judge: letters are 1", "judge: letters are 2",
        "judge: letters turned round", "judge: letters are signs", "judge: letters count from 0",
        "judge: letters say unstructured", "judge: letters of the first row", "judge: letters of the row before",
        "judge: letters by areas", "judge: letters in front",
        "judge: letters behind the record", "judge: letters before the areas", "judge: letters behind all rows",
        "judge: letters at the end", "judge: letters when accepted alone", "judge: lines are the areas of an H1",
        "judge: an H1 has no lines", "judge: structured layers first", "judge: lines of structured layers first",
        "judge: an H1 has no row", "judge: no lines of an H1 behind the rows", "sums: rows of four words",
        "sums: letters are 0", "sums: letters when accepted alone", "all sums: rows of four words", "all sums: letters are 2",
        "all sums: letters when accepted alone",
    ]);
}

#[test]
fn wrong_needs_are_found() {
    are_found(Wrong, &[
        "need: four words a layer", "need: four words for H1", "need: four words for H2", "need: six words a layer",
        "need: six words for H1", "need: no row for H1", "need: no lines of H1", "need: areas for the lines of H1",
        "need: one word for the letters", "judge: four words a layer", "judge: four words for H1", "judge: no row for H1",
        "judge: one word for the letters",
    ]);
}

#[test]
fn wrong_counts_and_sums_of_lines_are_found() {
    are_found(Wrong, &[
        "judge: layers without H1", "judge: nodes without H1", "judge: lines without H1", "judge: lines of H1 are areas",
        "judge: an H1 has a measure", "judge: lines of H1 have measures", "judge: an M counts no nodes of H1",
        "judge: an M counts no lines of H1", "judge: an M counts no layer of H1", "judge: an M counts no records of H1",
        "sums: all lines are outside", "sums: all lines are inside", "sums: the sums of the layer before",
        "sums: the sums of the layer behind", "sums: sums behind an H1 are 0", "sums: an H1 has no sums",
        "sums: an H1 ends the sums", "sums: 22 for H1", "sums: H1 is refused", "sums: areas under H1",
        "all sums: all lines are outside", "all sums: all lines are inside", "all sums: the sums of the layer before",
        "all sums: the sums of the layer behind", "all sums: sums behind an H1 are 0", "all sums: an H1 has no sums",
        "all sums: an H1 ends the sums", "all sums: no room for H1", "all sums: places of H1 are untouched",
        "all sums: 22 for H1", "all sums: layers without H1", "all sums: H1 is refused",
    ]);
}

#[test]
fn wrong_dues_under_h1_are_found() {
    are_found(Wrong, &[
        "due: no areas under H1", "due: no nodes under H1", "due: no lines under H1", "due: nothing under H1",
        "due: nothing under H3", "due: one area under H1", "due: nothing told of H1", "due: an H1 is no H",
    ]);
}

#[test]
fn wrong_records_are_found() {
    are_found(Wrong, &[
        "reader: 7 for H1", "reader: 3 for H1", "reader: 7 for H1 that is ill formed", "reader: 7 for H3",
        "reader: 7 where another kind is named", "reader: H3 is read", "reader: H0 is read", "reader: h1 is read",
        "reader: any H is read", "reader: any letter before 1 is read", "reader: letters are lost", "reader: letters are 1",
        "reader: letters are 2", "reader: letters turned round", "reader: letters are signs", "reader: letters count from 0",
        "reader: letters by areas", "reader: letters of every kind", "reader: letters when refused",
        "reader: letters of another kind", "reader: letters as a mark", "reader: areas are judged", "reader: areas are lost",
        "writer: always H2", "writer: always H1", "writer: turned round", "writer: letters by areas", "writer: 0 is H2",
        "writer: 0 is H1", "writer: 3 is H2", "writer: anything else is H2", "writer: signs are letters",
        "writer: letters are two bits", "writer: letters are a byte", "writer: letters are half a word",
        "writer: letters have a sign", "writer: no letters are wrong", "writer: 1 of another kind", "writer: 2 of another kind",
        "writer: anything of another kind", "writer: anything of a kind without letters", "writer: H1 is refused",
        "writer: H1 with areas is refused", "writer: letters before the buffer",
        "writer: letters of another kind before the buffer", "writer: another number for letters",
        "writer: writes before it looks at letters",
    ]);
}

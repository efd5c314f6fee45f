//! The comparison: every answer of the other program against our own.

use crate::damage::{astray, counted, damaged, interesting, recount, set, steering, tell_more, told_areas};
use crate::damage::{Recount, OLD, RECOUNTS, TOLD, ZEROS};
use crate::due::{dues, told};
use crate::fields::{number, spelled, CODE, LAND};
use crate::generate::{assert_accepted, from_seed, long_loops, sheet, sheet_of, MOST_IN_MESH};
use crate::judge::{verdict, Verdict};
use crate::layout::{codes, h, l, layout, m, records_total};
use crate::layout::{Field, Kind, Sort, KINDS, LAYER, RECORD, STRUCTURED, UNSTRUCTURED};
use crate::numbers::Texts;
use crate::piped::Pipe;
use crate::product::{Answer, Buffers, Call, Product, RawValue, Second, Told};
use crate::random::Random;
use crate::records::{held, letters, read, Refusal};
use crate::sheet::{joined, land_lines_s, land_s, lines_s, sheet_s, Layer, Mesh, Records, Sheet};
use crate::sums::{answer, answer_for_all};
use crate::walk::record;
use std::fmt::Debug;
use std::path::PathBuf;

/// The first answer on which the two programs differ.
#[derive(Debug)]
pub struct Disagreement {
    pub what: String,
    pub ours: String,
    pub theirs: String,
    /// The file or the record it is about.
    pub bytes: Vec<u8>,
}

/// The calls whose answers have a number.
pub const CALLS: [&str; 6] = ["judge", "sums", "all sums", "reader", "writer", "position"];

/// How often each number was the answer of each of these calls.
pub type Reached = [[u64; 49]; 6];

/// The numbers that an answer can have.
pub fn numbers() -> impl Iterator<Item = usize> {
    (0..=22).filter(|number| *number != NEVER).chain([48])
}

/// The number that is no answer any more.
pub const NEVER: usize = 7;

/// What can become of land that is spelled " 0000".
pub const LAND_BECAME: [&str; 5] = ["in an accepted file", "refused as a code", "refused elsewhere", "read", "written back"];

/// What can become of an unstructured layer that has lines.
pub const LINES_BECAME: [&str; 12] = [
    "in an accepted file", "alone in one", "before a structured layer in a mesh", "behind one", "with land as \" 0000\"",
    "refused at H 15", "at L 30", "at L 35", "at L 40", "at L 45", "read", "written back",
];

/// What can become of records totals. The old ones count the record that bears them as well.
pub const TOTALS_BECAME: [&str; 15] = [
    "0 of an H alone in an accepted file", "1 of it refused at H 25", "the most of an M in an accepted file",
    "old ones refused at M 52", "of one layer", "of two in a mesh", "of several meshes", "of H1",
    "old ones of every H and no M refused at H 25", "of every M and no H at M 52", "one more at M 52", "one fewer",
    "without the H records", "one more at H 25", "one fewer",
];

/// Due is asked of every record of a file of so many records or less, where it is not asked of some alone.
const SHORT: u32 = 50;

/// Everything compared so far.
pub struct Compare<'a> {
    other: Other<'a>,
    /// Where each file is written before it is compared, in case the other program does not return.
    pub before: Option<PathBuf>,
    pub files: u64,
    pub reached: Reached,
    /// How often nothing and each of the seven kinds was told to be due.
    pub due: [u64; 8],
    /// How often each of these became of land that is spelled " 0000".
    pub land: [u64; 5],
    /// How often each of these became of an unstructured layer.
    pub lines: [u64; 12],
    /// How often each of these became of records totals.
    pub totals: [u64; 15],
    /// What became of texts of number fields, in single records and in files.
    pub texts: [Texts; 2],
    /// What reads and writes single records in our place: this program, but where it is tried what shows if both are wrong alike.
    pub own: &'a dyn Product,
    /// Of so many comparisons side by side this is the one of that number, from 0.
    share: (u64, u64),
    /// How many files, values and positions there were, for all shares.
    turns: u64,
    /// Draws the further calls about a file that are made, if not all of them are.
    pub sparing: Option<Random>,
    /// Whether due is asked of every record of a short file.
    pub every_record: bool,
    /// Draws records of which due is asked.
    drawn: Random,
}

/// The other program.
enum Other<'a> {
    /// It is called, and each answer is compared at once.
    Called(&'a dyn Product),
    /// It is asked over pipes, and answers are compared as they come.
    Piped(Pipe),
}

pub type Agreed = Result<(), Disagreement>;

/// Compares two answers to a call: what is told, then each buffer.
pub fn agree(file: &[u8], call: &Call, ours: &Answer, theirs: &Answer) -> Agreed {
    let (our, their) = (&ours.buffers, &theirs.buffers);
    let differing = differs("", &ours.told, &theirs.told)
        .or_else(|| differs(": the table", &our.table, &their.table))
        .or_else(|| differs(": the measures", &our.measures, &their.measures))
        .or_else(|| differs(": the sums", &our.sums, &their.sums))
        .or_else(|| differs(": the buffer", &our.bytes, &their.bytes));
    match differing {
        None => Ok(()),
        Some((part, our, their)) => Err(disagreement(file, call, ours, part, our, their)),
    }
}

fn differs<T: PartialEq + Debug>(part: &'static str, ours: &T, theirs: &T) -> Option<(&'static str, String, String)> {
    (ours != theirs).then(|| (part, format!("{ours:?}"), format!("{theirs:?}")))
}

/// A disagreement about a part of an answer. Its bytes are the file, the record that was read, or what we wrote.
pub fn disagreement(file: &[u8], call: &Call, ours: &Answer, part: &str, our: String, their: String) -> Disagreement {
    let bytes = match call {
        Call::Need | Call::Judge { .. } | Call::Sums { .. } | Call::AllSums { .. } | Call::Due { .. } => file,
        Call::Read { bytes, .. } => bytes,
        Call::Write { .. } | Call::Position { .. } => &ours.buffers.bytes,
    };
    Disagreement { what: format!("{call}{part}"), ours: our, theirs: their, bytes: bytes.to_vec() }
}

impl<'a> Compare<'a> {
    pub fn new(product: &'a dyn Product) -> Compare<'a> {
        Compare::with(Other::Called(product), (0, 1))
    }

    /// One of several comparisons side by side: share `number`, from 0, of `shares`.
    pub fn through(pipe: Pipe, number: u64, shares: u64) -> Compare<'a> {
        Compare::with(Other::Piped(pipe), (number, shares))
    }

    fn with(other: Other<'a>, share: (u64, u64)) -> Compare<'a> {
        Compare {
            other,
            before: None,
            files: 0,
            reached: [[0; 49]; 6],
            due: [0; 8],
            land: [0; 5],
            lines: [0; 12],
            totals: [0; 15],
            texts: Default::default(),
            own: &Second,
            share,
            turns: 0,
            sparing: None,
            every_record: false,
            drawn: Random::new(share.0),
        }
    }

    /// Whether what comes next is of this share.
    pub(crate) fn turn(&mut self) -> bool {
        self.turns += 1;
        self.turns % self.share.1 == self.share.0
    }

    /// Whether this is the first share, and whether it is the only one.
    pub(crate) fn is_first(&self) -> bool {
        self.share.0 == 0
    }

    pub(crate) fn is_alone(&self) -> bool {
        self.share.1 == 1
    }

    /// Whether a further call about a file is made: every one, or one of four.
    fn further(&mut self) -> bool {
        self.sparing.as_mut().map_or(true, |random| random.below(4) == 0)
    }

    /// Waits for answers that have not come yet. Nothing is asked afterwards.
    pub fn end(&mut self) -> Agreed {
        match &mut self.other {
            Other::Called(_) => Ok(()),
            Other::Piped(pipe) => pipe.end(),
        }
    }

    /// Makes a call and holds the answer to our own.
    fn ask(&mut self, file: &[u8], call: Call, ours: Answer) -> Agreed {
        let row = match call {
            Call::Need | Call::Due { .. } => None,
            Call::Judge { .. } => Some(0),
            Call::Sums { .. } => Some(1),
            Call::AllSums { .. } => Some(2),
            Call::Read { .. } => Some(3),
            Call::Write { .. } => Some(4),
            Call::Position { .. } => Some(5),
        };
        let number = ours.told.number();
        let kind = if let Told::Due(kind) = ours.told { Some(kind) } else { None };
        match &mut self.other {
            Other::Called(product) => agree(file, &call, &ours, &call.answer(*product, file))?,
            Other::Piped(pipe) => pipe.ask(call, ours)?,
        }
        if let Some(row) = row {
            self.reached[row][number as usize] += 1;
        }
        if let Some(kind) = kind {
            self.due[kind as usize] += 1;
        }
        Ok(())
    }

    /// Every answer about one file and about each of its records, if it is this one's turn.
    pub fn file(&mut self, file: &[u8]) -> Agreed {
        if !self.turn() {
            return Ok(());
        }
        let verdict = verdict(file);
        self.whole_file(file, &verdict)?;
        self.records(file, &verdict.kinds)
    }

    /// Every answer about one file.
    pub(crate) fn whole_file(&mut self, file: &[u8], verdict: &Verdict) -> Agreed {
        self.files += 1;
        if let Some(became) = land_became(file, verdict) {
            self.land[became] += 1;
        }
        for became in lines_became(file, verdict) {
            self.lines[became] += 1;
        }
        for became in totals_became(file, verdict) {
            self.totals[became] += 1;
        }
        if let Some(path) = &self.before {
            std::fs::write(path, file).expect("the file can be written");
        }
        if let Other::Piped(pipe) = &mut self.other {
            pipe.file(file);
        }
        let need = Answer { told: Told::Need(verdict.need()), buffers: Buffers::default() };
        self.ask(file, Call::Need, need)?;
        let lengths = buffer_lengths(verdict.table.len(), verdict.measures.len());
        for (index, (words, areas)) in lengths.into_iter().enumerate() {
            if index == 0 || self.further() {
                self.judged(file, verdict, words, areas)?;
            }
        }
        self.summed(file, verdict)?;
        for (words, room) in sums_lengths(verdict.table.len(), verdict.layers) {
            self.summed_all(file, verdict, words, room)?;
        }
        self.due(file, verdict)
    }

    /// The judge's answer, and both buffers afterwards.
    fn judged(&mut self, file: &[u8], verdict: &Verdict, words: usize, areas: usize) -> Agreed {
        let call = Call::Judge { words, areas };
        let ours = verdict.outcome(words, areas);
        let mut buffers = call.buffers();
        put_table(&mut buffers, verdict, words);
        if ours.refusal.number == 0 {
            buffers.measures[..verdict.measures.len()].copy_from_slice(&verdict.measures);
        }
        self.ask(file, call, Answer { told: Told::Outcome(ours), buffers })
    }

    /// The sums of each layer, of layer 0 and of one layer too many.
    fn summed(&mut self, file: &[u8], verdict: &Verdict) -> Agreed {
        let layers = verdict.sums.len() as u32;
        let need = verdict.table.len();
        let asked: Vec<u32> = if file.len() > 1_000_000 {
            vec![0, 1, layers, layers + 1]
        } else {
            (0..=layers + 1).collect()
        };
        for layer in asked {
            self.summed_layer(file, verdict, need, layer)?;
        }
        if layers > 0 {
            self.summed_layer(file, verdict, need + 3, 1)?;
            self.summed_layer(file, verdict, need, u32::MAX)?;
        }
        if need > 0 {
            self.summed_layer(file, verdict, need - 1, layers + 1)?;
        }
        Ok(())
    }

    fn summed_layer(&mut self, file: &[u8], verdict: &Verdict, words: usize, layer: u32) -> Agreed {
        if !self.further() {
            return Ok(());
        }
        let call = Call::Sums { words, layer };
        let (refusal, sums) = answer(verdict, words, layer);
        let mut buffers = call.buffers();
        put_table(&mut buffers, verdict, words);
        self.ask(file, call, Answer { told: Told::Sums(refusal, sums), buffers })
    }

    /// The answer for the sums of all layers, and both buffers afterwards.
    fn summed_all(&mut self, file: &[u8], verdict: &Verdict, words: usize, room: usize) -> Agreed {
        if !self.further() {
            return Ok(());
        }
        let call = Call::AllSums { words, room };
        let (outcome, sums) = answer_for_all(verdict, words, room);
        let mut buffers = call.buffers();
        put_table(&mut buffers, verdict, words);
        buffers.sums[..sums.len()].copy_from_slice(&sums);
        self.ask(file, call, Answer { told: Told::Outcome(outcome), buffers })
    }

    /// What is due at the ends of a file, past it, about the record that is refused, and at some records or all of them.
    fn due(&mut self, file: &[u8], verdict: &Verdict) -> Agreed {
        let dues = dues(file);
        let last = dues.len() as u32 - 1;
        let refused = verdict.outcome(usize::MAX, usize::MAX).refusal.record;
        let mut asked = vec![0, 1, refused.saturating_sub(1), refused, refused + 1, last, last + 1, last + 2, u32::MAX];
        if self.every_record && last <= SHORT {
            asked.extend(1..=last);
        } else {
            asked.extend((0..3).map(|_| 1 + self.drawn.below(dues.len()) as u32));
        }
        asked.sort();
        asked.dedup();
        for record in asked {
            if self.further() {
                self.due_at(file, &dues, record)?;
            }
        }
        Ok(())
    }

    fn due_at(&mut self, file: &[u8], dues: &[Kind], record: u32) -> Agreed {
        let told = Told::Due(told(dues, record));
        self.ask(file, Call::Due { record }, Answer { told, buffers: Buffers::default() })
    }

    /// Every record, read by its kind and by another, and written back.
    fn records(&mut self, file: &[u8], kinds: &[Kind]) -> Agreed {
        let most = if file.len() > 1_000_000 { 20_000 } else { file.len() / RECORD };
        for k in 1..=most {
            let bytes = record(file, k);
            let other = KINDS[(k + file.len()) % 7];
            self.record(kinds.get(k - 1).copied().unwrap_or(other), bytes)?;
            if k % 8 == 0 {
                self.record(other, bytes)?;
            }
        }
        Ok(())
    }

    /// One record, read and written back.
    pub fn record(&mut self, kind: Kind, bytes: &[u8]) -> Agreed {
        self.reading(kind, bytes).map(|_| ())
    }

    /// The same, and what both programs read.
    pub(crate) fn reading(&mut self, kind: Kind, bytes: &[u8]) -> Result<(Refusal, RawValue), Disagreement> {
        let call = Call::Read { kind: kind as u32, bytes: bytes.to_vec() };
        let ours = call.answer(self.own, &[]);
        let Told::Reading(refusal, value) = ours.told else { unreachable!("a reader tells what it reads") };
        self.ask(&[], call, ours)?;
        if refusal == Refusal::default() {
            let marked = u64::from(value.marks.contains(&1));
            let unstructured = u64::from(value.letters == UNSTRUCTURED);
            self.land[3] += marked;
            self.lines[10] += unstructured;
            self.written_back(value, bytes)?;
            self.land[4] += marked;
            self.lines[11] += unstructured;
        }
        Ok((refusal, value))
    }

    /// A record's value, written: the bytes are those that were read.
    fn written_back(&mut self, value: RawValue, bytes: &[u8]) -> Agreed {
        let call = Call::Write { value, length: RECORD };
        let ours = call.answer(self.own, &[]);
        let back = &ours.buffers.bytes[..RECORD];
        if back != bytes {
            let wrote = back.escape_ascii().to_string();
            let was = format!("; the record that was read is {}", bytes.escape_ascii());
            return Err(disagreement(&[], &call, &ours, &was, wrote, "not asked".into()));
        }
        self.ask(&[], call, ours)
    }

    /// One value, written to a buffer of this length.
    pub fn value(&mut self, value: RawValue, length: usize) -> Agreed {
        let call = Call::Write { value, length };
        let ours = call.answer(self.own, &[]);
        self.ask(&[], call, ours)
    }

    /// One position, if it is this one's turn.
    pub fn position(&mut self, mesh: i32, x: i32, y: i32) -> Agreed {
        if !self.turn() {
            return Ok(());
        }
        let call = Call::Position { mesh, x, y };
        let ours = call.answer(&Second, &[]);
        self.ask(&[], call, ours)
    }
}

/// What becomes of land that is spelled " 0000" in a file, by its place in LAND_BECAME: it stands as a code in an accepted
/// file, or the file is refused for it.
fn land_became(file: &[u8], verdict: &Verdict) -> Option<usize> {
    let Refusal { number, record: k, column } = verdict.outcome(usize::MAX, usize::MAX).refusal;
    let mut kinds = verdict.kinds.iter().zip(1..);
    match number {
        0 => kinds.any(|(kind, k)| has_land(*kind, record(file, k))).then_some(0),
        5 => {
            let fields = &layout(*verdict.kinds.last()?).numbers;
            let field = fields.iter().find(|field| field.start == column as usize)?;
            let is_land = *field.of(record(file, k as usize)) == LAND;
            is_land.then_some(if field.sort == Sort::Code { 1 } else { 2 })
        }
        _ => None,
    }
}

fn has_land(kind: Kind, bytes: &[u8]) -> bool {
    codes(kind).iter().any(|index| *layout(kind).numbers[*index].of(bytes) == LAND)
}

/// What becomes of the unstructured layers of a file, by its places in LINES_BECAME: they stand in an accepted file, or the
/// file is refused for what one of them tells of areas.
fn lines_became(file: &[u8], verdict: &Verdict) -> Vec<usize> {
    let Refusal { number, record: k, column } = verdict.outcome(usize::MAX, usize::MAX).refusal;
    match number {
        0 => accepted_lines(file, verdict),
        6 if letters_over(file, &verdict.kinds, k as usize) == UNSTRUCTURED => {
            let kind = verdict.kinds[k as usize - 1];
            let fields = told_areas(kind).iter().map(|index| layout(kind).numbers[*index]).enumerate();
            let tells = |number: Option<(i32, u32)>| number.is_some_and(|(number, _)| number > 0);
            let telling = fields.filter(|(_, field)| tells(held(field, record(file, k as usize))));
            let refused = telling.filter(|(_, field)| field.start == column as usize);
            refused.map(|(place, _)| place + if kind == Kind::H { 5 } else { 6 }).collect()
        }
        _ => Vec::new(),
    }
}

/// The same of an accepted file.
fn accepted_lines(file: &[u8], verdict: &Verdict) -> Vec<usize> {
    let kinds = &verdict.kinds;
    let rows: Vec<&[u32]> = verdict.table.chunks(5).take(verdict.layers).collect();
    let with_lines = |row: &[u32], letters: u32| row[2] > 0 && row[4] == letters;
    let is_unstructured = |row: &&[u32]| with_lines(row, UNSTRUCTURED);
    let in_a_mesh = |letters: [u32; 2]| {
        let one_mesh = |pair: &&[&[u32]]| kinds[pair[1][0] as usize - 2] != Kind::M;
        rows.windows(2).filter(one_mesh).any(|pair| (0..2).all(|index| with_lines(pair[index], letters[index])))
    };
    let mut over = 0;
    let land_under = |(kind, k): (&Kind, usize)| {
        if *kind == Kind::H {
            over = letters(Kind::H, record(file, k)).unwrap_or(0);
        }
        over == UNSTRUCTURED && has_land(*kind, record(file, k))
    };
    let became = [
        rows.iter().any(is_unstructured),
        rows.iter().all(is_unstructured),
        in_a_mesh([UNSTRUCTURED, STRUCTURED]),
        in_a_mesh([STRUCTURED, UNSTRUCTURED]),
        kinds.iter().zip(1..).any(land_under),
    ];
    (0..became.len()).filter(|place| became[*place]).collect()
}

/// The letters of the layer in which record k stands, by the kinds of the records up to it, or 0.
pub fn letters_over(file: &[u8], kinds: &[Kind], k: usize) -> u32 {
    let over = (1..=k).rev().find(|k| matches!(kinds[k - 1], Kind::M | Kind::H));
    let head = over.filter(|k| kinds[k - 1] == Kind::H);
    head.and_then(|k| letters(Kind::H, record(file, k))).unwrap_or(0)
}

/// A records total: who bears it, what it tells, and how many records stand behind its bearer that it has to tell.
struct Total {
    kind: Kind,
    record: u32,
    told: i32,
    behind: i32,
}

/// The records totals of a file that is not refused before stage 3, from the last one to the first.
fn totals(file: &[u8], kinds: &[Kind]) -> Vec<Total> {
    let mut totals = Vec::new();
    let [mut mesh_ends, mut layer_ends] = [kinds.len(); 2];
    for (index, kind) in kinds.iter().enumerate().rev() {
        let Some(field) = records_total(*kind) else { continue };
        let last = if *kind == Kind::M { mesh_ends } else { layer_ends };
        let told = number(field.of(record(file, index + 1))).expect("a total that stage 2 has passed");
        totals.push(Total { kind: *kind, record: index as u32 + 1, told, behind: (last - index - 1) as i32 });
        layer_ends = index;
        mesh_ends = if *kind == Kind::M { index } else { mesh_ends };
    }
    totals
}

/// What becomes of the records totals of a file, by its places in TOTALS_BECAME.
fn totals_became(file: &[u8], verdict: &Verdict) -> Vec<usize> {
    let Refusal { number, record: k, column } = verdict.outcome(usize::MAX, usize::MAX).refusal;
    if !matches!((number, column), (0, _) | (10, 25 | 52)) {
        return Vec::new();
    }
    let totals = totals(file, &verdict.kinds);
    let all = |kind: Kind, more: i32| {
        totals.iter().filter(|total| total.kind == kind).all(|total| total.told - total.behind == more)
    };
    let Some(at) = totals.iter().find(|total| total.record == k) else {
        let alone = totals.iter().any(|total| total.kind == Kind::H && total.behind == 0);
        let most = totals.iter().any(|total| total.behind + 1 == MOST_IN_MESH as i32);
        return [alone.then_some(0), most.then_some(2)].into_iter().flatten().collect();
    };
    let (meshes, layers) = (verdict.kinds.iter().filter(|kind| **kind == Kind::M).count(), verdict.layers);
    let next = totals.iter().rev().skip_while(|total| total.record <= k);
    let of_mesh = next.take_while(|total| total.kind == Kind::H).count() as i32;
    let unstructured = verdict.table.chunks(5).take(layers).any(|row| row[4] == UNSTRUCTURED);
    let more = at.told - at.behind;
    let became = match at.kind {
        Kind::M if all(Kind::M, 1) && all(Kind::H, 1) => {
            vec![(3, true), (4, layers == 1), (5, layers > meshes), (6, meshes > 1), (7, unstructured)]
        }
        Kind::M if meshes > 1 && all(Kind::M, 1) && all(Kind::H, 0) => vec![(9, true)],
        Kind::M => vec![(10, more == 1), (11, more == -1), (12, more < -1 && more == -of_mesh)],
        _ if (at.told, at.behind) == (1, 0) => vec![(1, true)],
        _ if layers > 1 && all(Kind::M, 0) && all(Kind::H, 1) => vec![(8, true)],
        _ => vec![(13, more == 1), (14, more == -1)],
    };
    became.into_iter().filter(|(_, yes)| *yes).map(|(place, _)| place).collect()
}

/// The table, where it stands after a call.
fn put_table(buffers: &mut Buffers, verdict: &Verdict, words: usize) {
    if verdict.table_stands(words) {
        buffers.table[..verdict.table.len()].copy_from_slice(&verdict.table);
    }
}

/// Tables of need, 0, need - 1 and need + 3 words; measures for all areas, for two more, for one too few, and none.
/// What the file needs comes first.
fn buffer_lengths(need: usize, areas: usize) -> Vec<(usize, usize)> {
    let fewer = areas.saturating_sub(1);
    if need == 0 {
        return vec![(0, 2), (3, 0)];
    }
    let mut lengths = vec![(need, areas), (0, areas + 2), (need - 1, fewer), (need + 3, areas + 2)];
    if areas > 0 {
        lengths.push((need, 0));
    }
    if fewer > 0 {
        lengths.push((need + 3, fewer));
    }
    lengths
}

/// Tables and rooms for the sums of all layers: just right, and each too short or longer. One sum a layer is not enough.
fn sums_lengths(need: usize, layers: usize) -> Vec<(usize, usize)> {
    let room = 2 * layers;
    if need == 0 {
        return vec![(0, 2), (3, 0)];
    }
    vec![(need, room), (need, room - 1), (need, 0), (need + 3, layers), (need + 3, room + 3), (need - 1, room), (0, 0)]
}

// The parts of the comparison.

/// Part 1: every one-byte change of sheet S, and sheet S cut at every byte.
pub fn one_byte_changes(compare: &mut Compare) -> Agreed {
    let sheet = sheet_s().bytes();
    compare.file(&sheet)?;
    for index in 0..sheet.len() {
        changed_byte(compare, &sheet, index)?;
        compare.file(&sheet[..index])?;
    }
    Ok(())
}

/// A file with each other byte at a place.
fn changed_byte(compare: &mut Compare, file: &[u8], index: usize) -> Agreed {
    let mut changed = file.to_vec();
    for step in 1..=255u8 {
        changed[index] = file[index].wrapping_add(step);
        compare.file(&changed)?;
    }
    Ok(())
}

/// Part 1 also: sheet S with land on its ground, and every one-byte change of its layer codes and of its codes; and land in a
/// sheet of several layers.
pub fn land_changes(compare: &mut Compare) -> Agreed {
    let records = land_s().records();
    let file = joined(&records);
    compare.file(&file)?;
    for (k, (kind, _)) in records.iter().enumerate() {
        let layer = matches!(kind, Kind::H | Kind::N | Kind::L | Kind::A).then_some(LAYER);
        let codes = codes(*kind).iter().map(|index| layout(*kind).numbers[*index]);
        for field in layer.into_iter().chain(codes) {
            for column in field.start..=field.end {
                changed_byte(compare, &file, k * RECORD + column - 1)?;
            }
        }
    }
    land_among_layers(compare)
}

/// A sheet whose layers are 5, 1, 5 and 1, in three meshes, with each code spelled as land is, or nearly so.
fn land_among_layers(compare: &mut Compare) -> Agreed {
    let layer = |sheet: Sheet| sheet.meshes[0].layers[0].clone();
    let (land, other) = (layer(land_s()), layer(sheet_s()));
    let mut sheet = sheet_s();
    let mut mesh = sheet.meshes.remove(0);
    for layers in [vec![land.clone()], vec![other.clone(), land], vec![other]] {
        mesh.layers = layers;
        sheet.meshes.push(mesh.clone());
        mesh.code += 1;
    }
    assert_accepted(&sheet);
    let records = sheet.records();
    for (index, (kind, _)) in records.iter().enumerate() {
        for field in codes(*kind).iter().map(|index| layout(*kind).numbers[*index]) {
            for text in ZEROS {
                let mut changed = records.clone();
                set(&mut changed[index].1, &field, text);
                compare.file(&joined(&changed))?;
            }
        }
    }
    Ok(())
}

/// Part 1 also: sheet S as an unstructured layer, 1 and 5, with every one-byte change of its letters and of what tells of areas,
/// and with each two of its line's codes and area numbers changed; and letters in a sheet of several layers.
pub fn unstructured_changes(compare: &mut Compare) -> Agreed {
    for sheet in [lines_s(), land_lines_s()] {
        let records = sheet.records();
        let file = joined(&records);
        compare.file(&file)?;
        for (k, (kind, _)) in records.iter().enumerate() {
            let letters = 1..=if *kind == Kind::H { 2 } else { 0 };
            let fields = told_areas(*kind).iter().map(|index| layout(*kind).numbers[*index]);
            for column in letters.chain(fields.flat_map(|field| field.start..=field.end)) {
                changed_byte(compare, &file, k * RECORD + column - 1)?;
            }
            two_changed(compare, &records, k)?;
        }
    }
    letters_among_layers(compare)
}

/// Each two numbers of a record that tell of areas set at once.
fn two_changed(compare: &mut Compare, records: &Records, index: usize) -> Agreed {
    let kind = records[index].0;
    let fields: Vec<Field> = told_areas(kind).iter().map(|index| layout(kind).numbers[*index]).collect();
    for (place, one) in fields.iter().enumerate() {
        for two in &fields[..place] {
            for (text, other) in TOLD.into_iter().flat_map(|text| TOLD.map(|other| (text, other))) {
                let mut changed = records.clone();
                set(&mut changed[index].1, one, text);
                set(&mut changed[index].1, two, other);
                compare.file(&joined(&changed))?;
            }
        }
    }
    Ok(())
}

/// Letters of every sort.
const LETTERS: [&[u8; 2]; 12] =
    [b"H1", b"H2", b"H3", b"H0", b"H ", b"h1", b"h2", b" 1", b"1H", b"HH", b"M1", b"L1"];

/// A sheet whose layers are structured or not in every order, in four meshes, with each record's letters and each number that
/// tells of areas changed; then each mesh by itself, and meshes in which a layer code stands twice or does not rise.
fn letters_among_layers(compare: &mut Compare) -> Agreed {
    let layer = |sheet: Sheet| sheet.meshes[0].layers[0].clone();
    let layers = [[layer(lines_s()), layer(sheet_s())], [layer(land_lines_s()), layer(land_s())]];
    let mesh = |code: i32, layers: Vec<Layer>| Mesh { code, layers, ..sheet_s().meshes.remove(0) };
    let orders: [(usize, usize); 4] = std::array::from_fn(|order| (order / 2, order % 2));
    let of_both = |(one, two): (usize, usize)| vec![layers[0][one].clone(), layers[1][two].clone()];
    let sheet = Sheet { meshes: (533_940..).zip(orders).map(|(code, order)| mesh(code, of_both(order))).collect() };
    assert_accepted(&sheet);
    let records = sheet.records();
    for (index, (kind, _)) in records.iter().enumerate() {
        for letters in LETTERS {
            let mut changed = records.clone();
            changed[index].1[..2].copy_from_slice(letters);
            compare.file(&joined(&changed))?;
        }
        for field in told_areas(*kind).iter().map(|index| layout(*kind).numbers[*index]) {
            for text in TOLD {
                let mut changed = records.clone();
                set(&mut changed[index].1, &field, text);
                compare.file(&joined(&changed))?;
            }
        }
    }
    for (one, two) in orders {
        let of_one = |code: usize| vec![layers[code][one].clone(), layers[code][two].clone()];
        let falling = vec![layers[1][one].clone(), layers[0][two].clone()];
        for layers in [of_both((one, two)), of_one(0), of_one(1), falling] {
            compare.file(&Sheet { meshes: vec![mesh(533_945, layers)] }.bytes())?;
        }
    }
    Ok(())
}

/// Part 1 also: records totals. Meshes of one layer and of two, each structured or not, or an H alone, are told in every way of
/// counting and with totals near the right ones; then all of them in one file.
pub fn records_totals(compare: &mut Compare) -> Agreed {
    let meshes = bearing_meshes();
    for mesh in &meshes {
        let sheet = Sheet { meshes: vec![mesh.clone()] };
        assert_accepted(&sheet);
        totals_of_mesh(compare, &sheet.records())?;
    }
    let sheet = Sheet { meshes };
    assert_accepted(&sheet);
    let records = sheet.records();
    compare.file(&joined(&records))?;
    for way in RECOUNTS {
        recounted(compare, &records, way, |_| true)?;
    }
    for index in bearing(&records) {
        for more in [1, -1] {
            let mut changed = records.clone();
            tell_more(&mut changed, index, more);
            compare.file(&joined(&changed))?;
        }
        if records[index].0 == Kind::M {
            recounted(compare, &records, OLD, |other| other >= index)?;
            recounted(compare, &records, OLD, |other| other < index)?;
        }
    }
    totals_beside_faults(compare, &records)
}

/// The old totals in a file whose last record is missing, ill formed or has a wrong line end, and in one whose lines' links disagree.
fn totals_beside_faults(compare: &mut Compare, records: &Records) -> Agreed {
    let last = records.len() - 1;
    recounted(compare, &records[..last].to_vec(), OLD, |_| true)?;
    for column in [72, 73] {
        let mut changed = records.clone();
        changed[last].1[column - 1] = b'x';
        recounted(compare, &changed, OLD, |_| true)?;
    }
    let mut changed = records.clone();
    for (_, line) in changed.iter_mut().filter(|(kind, _)| *kind == Kind::L) {
        set(line, &layout(Kind::L).numbers[l::START_LINK], b"0");
    }
    for way in RECOUNTS {
        recounted(compare, &changed, way, |_| true)?;
    }
    Ok(())
}

/// Meshes with each two sorts of layers, and with each sort alone.
fn bearing_meshes() -> Vec<Mesh> {
    let sorts = |sheets: [Sheet; 2]| -> Vec<Layer> {
        let layers = sheets.map(|mut sheet| sheet.meshes[0].layers.remove(0)).to_vec();
        let alone = layers.clone().into_iter().map(|layer| Layer { nodes: vec![], lines: vec![], areas: vec![], ..layer });
        layers.iter().cloned().chain(alone).collect()
    };
    let (ones, fives) = (sorts([sheet_s(), lines_s()]), sorts([land_s(), land_lines_s()]));
    let single = ones.iter().chain(&fives).map(|layer| vec![layer.clone()]);
    let both = ones.iter().flat_map(|one| fives.iter().map(|five| vec![one.clone(), five.clone()]));
    let codes = (0..).map(|k| 533_900 + k / 8 * 10 + k % 8);
    codes.zip(single.chain(both)).map(|(code, layers)| Mesh { code, layers, ..sheet_s().meshes.remove(0) }).collect()
}

/// The places of the records that bear a records total.
fn bearing(records: &Records) -> Vec<usize> {
    (0..records.len()).filter(|index| records_total(records[*index].0).is_some()).collect()
}

/// A file whose records are counted in another way, in the meshes and layers whose M or H stands at a place that is chosen.
fn recounted(compare: &mut Compare, records: &Records, way: Recount, chosen: impl Fn(usize) -> bool) -> Agreed {
    let mut changed = records.clone();
    recount(&mut changed, way, chosen);
    compare.file(&joined(&changed))
}

/// A file of one mesh in every way of counting; each records total near and far; all of them one more, right or one fewer at
/// once; and the old ones where another total of the M is one more.
fn totals_of_mesh(compare: &mut Compare, records: &Records) -> Agreed {
    compare.file(&joined(records))?;
    for way in RECOUNTS {
        recounted(compare, records, way, |_| true)?;
    }
    let bearing = bearing(records);
    for index in &bearing {
        let field = records_total(records[*index].0).expect("it bears one");
        let now = number(field.of(&records[*index].1)).expect("a total of a sheet");
        let near = (now - 3..now + 4).chain([0, 1, -now, now + 10, now + 100, now + 256, now + 10_000, now + 65_536, 99_999]);
        for text in near.filter_map(|told| spelled(told, field.width())) {
            let mut changed = records.clone();
            set(&mut changed[*index].1, &field, &text[..field.width()]);
            compare.file(&joined(&changed))?;
        }
    }
    for offs in 0..3usize.pow(bearing.len() as u32) {
        let mut changed = records.clone();
        for (place, index) in (0..).zip(&bearing) {
            tell_more(&mut changed, *index, (offs / 3usize.pow(place) % 3) as i32 - 1);
        }
        compare.file(&joined(&changed))?;
    }
    for field in [m::NODES, m::LINES, m::AREAS].map(|index| layout(Kind::M).numbers[index]) {
        let mut changed = records.clone();
        let now = number(field.of(&changed[0].1)).expect("a total of a sheet");
        set(&mut changed[0].1, &field, format!("{:5}", now + 1).as_bytes());
        recounted(compare, &changed, OLD, |_| true)?;
    }
    Ok(())
}

/// Part 1 also: a mesh of as many records as its total can tell, and of one and two more. There no total is right, neither the
/// largest nor the last five digits.
pub fn full_totals(compare: &mut Compare) -> Agreed {
    let mut sheet = lines_s();
    let more = 7 * (MOST_IN_MESH - sheet.meshes[0].length());
    sheet.meshes[0].layers[0].lines[0].points.splice(0..0, vec![(0, 0); more]);
    let mut records = sheet.records();
    let told: [&[(&[u8], &[u8])]; 3] = [
        &[(b"99999", b"99998"), (b"99999", b"99999")],
        &[(b"99999", b"99999"), (b"    0", b"99999")],
        &[(b"    1", b"    0")],
    ];
    for (longer, told) in (0..).zip(told) {
        for (mesh, layer) in told {
            set(&mut records[0].1, &layout(Kind::M).numbers[m::RECORDS], mesh);
            set(&mut records[1].1, &layout(Kind::H).numbers[h::RECORDS], layer);
            if compare.turn() {
                let file = joined(&records);
                compare.whole_file(&file, &verdict(&file))?;
            }
        }
        let points = sheet.meshes[0].layers[0].lines[0].points.len() + 7 * (longer + 1);
        set(&mut records[3].1, &layout(Kind::L).numbers[l::POINTS], format!("{points:6}").as_bytes());
        records.insert(5, records[4]);
    }
    Ok(())
}

/// Part 2: every field of every kind set to each interesting value, in sheet S, in its like of layer 5, in both as unstructured
/// layers, and in generated sheets. Every second of these has loops over several records.
pub fn every_field(compare: &mut Compare, seeds: std::ops::Range<u64>) -> Agreed {
    for sheet in [sheet_s(), land_s(), lines_s(), land_lines_s()] {
        every_field_of(compare, &sheet, &mut Random::new(0))?;
    }
    for seed in seeds {
        let random = &mut Random::new(seed);
        let sheet = short_sheet(random, seed % 2 == 0);
        every_field_of(compare, &sheet, random)?;
    }
    Ok(())
}

/// A generated sheet of 20 to 200 records.
fn short_sheet(random: &mut Random, with_long_loops: bool) -> Sheet {
    loop {
        let sheet = if with_long_loops { long_loops(random) } else { sheet(random, 2, 3) };
        let records: usize = sheet.meshes.iter().map(|mesh| mesh.length()).sum();
        if (20..=200).contains(&records) {
            assert_accepted(&sheet);
            return sheet;
        }
    }
}

fn every_field_of(compare: &mut Compare, sheet: &Sheet, random: &mut Random) -> Agreed {
    let records = sheet.records();
    for index in chosen_records(&records, random) {
        let kind = records[index].0;
        for field in &layout(kind).fields {
            for text in interesting(field, field.of(&records[index].1)) {
                if !compare.turn() {
                    continue;
                }
                let mut changed = records.clone();
                set(&mut changed[index].1, field, &text);
                compare.record(kind, &changed[index].1)?;
                let file = joined(&changed);
                compare.whole_file(&file, &verdict(&file))?;
            }
        }
    }
    Ok(())
}

/// Of each kind a record that follows one of its kind, and a record that does not.
fn chosen_records(records: &Records, random: &mut Random) -> Vec<usize> {
    let mut chosen = Vec::new();
    for kind in KINDS {
        let follows = |index: usize| index > 0 && records[index - 1].0 == kind;
        let places = (0..records.len()).filter(|index| records[*index].0 == kind);
        let (later, first): (Vec<usize>, Vec<usize>) = places.partition(|index| follows(*index));
        for places in [first, later] {
            if !places.is_empty() {
                chosen.push(*random.pick(&places));
            }
        }
    }
    chosen
}

/// Part 2 also: codes and marks. As a code every text of five of the signs " 0-1" in layers 1 and 5, and in records with other
/// layer codes what is near land; then each mark beside some codes in some layers, and of kinds that have no codes.
pub fn every_code(compare: &mut Compare) -> Agreed {
    for (kind, bytes) in land_s().records() {
        for layer in [b" 5", b" 1"] {
            for index in codes(kind) {
                for text in 0..4usize.pow(CODE as u32) {
                    let text: [u8; CODE] = std::array::from_fn(|place| b" 0-1"[text >> (2 * place) & 3]);
                    code_read(compare, kind, bytes, layer, &[(*index, text)])?;
                }
            }
        }
        for layer in [b" 5", b" 1", b" 0", b" 4", b" 6", b"15", b"50", b"55", b"-5", b"05", b"5 ", b" x", b"  "] {
            for one in ZEROS {
                for other in ZEROS {
                    let texts: Vec<_> = codes(kind).iter().copied().zip([*one, *other]).collect();
                    code_read(compare, kind, bytes, layer, &texts)?;
                }
            }
        }
        every_mark(compare, read(kind, &bytes).expect("a record of a sheet is good").into())?;
    }
    Ok(())
}

/// A record with a layer code and texts for codes, read and written back, if it has codes and it is this one's turn.
fn code_read(
    compare: &mut Compare,
    kind: Kind,
    mut bytes: [u8; RECORD],
    layer: &[u8; 2],
    texts: &[(usize, [u8; CODE])],
) -> Agreed {
    if texts.is_empty() || !compare.turn() {
        return Ok(());
    }
    set(&mut bytes, &LAYER, layer);
    for (index, text) in texts {
        set(&mut bytes, &layout(kind).numbers[*index], text);
    }
    compare.record(kind, &bytes)
}

/// Marks of every sort.
const MARKS: [u32; 10] = [0, 1, 2, 3, 255, 256, 257, 0x1_0001, 0x8000_0001, u32::MAX];

/// A value with two marks of every sort, with several codes if its kind has codes, and with several first numbers: that is the
/// layer code, if there is one.
fn every_mark(compare: &mut Compare, value: RawValue) -> Agreed {
    let codes = codes(KINDS[value.kind as usize - 1]);
    let beside: &[[i32; 2]] =
        if codes.is_empty() { &[[0, 0]] } else { &[[0, 0], [0, 1], [1, 0], [88888, 0], [-1, 99999]] };
    for first in [5, 1, 0, 6, 15, 50, -5] {
        for numbers in beside {
            for marks in MARKS.into_iter().flat_map(|one| MARKS.map(|other| [one, other])) {
                let mut value = RawValue { marks, ..value };
                value.numbers[0] = first;
                codes.iter().zip(numbers).for_each(|(index, number)| value.numbers[*index] = *number);
                for length in [RECORD, RECORD - 1] {
                    if compare.turn() {
                        compare.value(value, length)?;
                    }
                }
            }
        }
    }
    Ok(())
}

/// Part 2 also: letters. Each kind read with letters of every sort, and an H with every letter in one of its two places; then each
/// kind's value with letters of every sort.
pub fn every_letter(compare: &mut Compare) -> Agreed {
    for (kind, bytes) in sheet_s().records() {
        for letters in LETTERS {
            letters_read(compare, kind, bytes, letters)?;
        }
        for letter in 0..=255 {
            for letters in [[b'H', letter], [letter, b'1'], [letter, b'2']] {
                letters_read(compare, Kind::H, bytes, &letters)?;
            }
        }
    }
    for (kind, bytes) in [sheet_s(), lines_s(), land_lines_s()].iter().flat_map(Sheet::records) {
        let value = read(kind, &bytes).expect("a record of a sheet is good").into();
        for letters in (0..=4).chain([49, 50, 255, 256, 257, 258, 0x1_0001, 0x1_0002, 0x8000_0001, 0x8000_0002, u32::MAX]) {
            for length in [RECORD, RECORD - 1, RECORD + 6] {
                if compare.turn() {
                    compare.value(RawValue { letters, ..value }, length)?;
                }
            }
        }
    }
    Ok(())
}

/// A record with these letters, read and written back, if it is this one's turn.
fn letters_read(compare: &mut Compare, kind: Kind, mut bytes: [u8; RECORD], letters: &[u8; 2]) -> Agreed {
    bytes[..2].copy_from_slice(letters);
    if !compare.turn() {
        return Ok(());
    }
    compare.record(kind, &bytes)
}

/// Part 3: generated sheets, each as it is and with several seeded damages, `count` damaged files in all.
pub fn damages(compare: &mut Compare, seed: u64, count: usize) -> Agreed {
    let mut left = count;
    let mut seed = seed;
    while left > 0 {
        let sheet = from_seed(seed);
        let random = &mut Random::new(!seed);
        compare.file(&sheet.bytes())?;
        let long = sheet.meshes.iter().map(|mesh| mesh.length()).sum::<usize>() > 1500;
        let of_this = left.min(if long { 5 } else { 40 });
        for _ in 0..of_this {
            compare.file(&damaged(random, &sheet))?;
        }
        left -= of_this;
        seed += 1;
    }
    Ok(())
}

/// Part 3 also: values that the writer may refuse, and buffers of other lengths.
pub fn odd_values(compare: &mut Compare, seed: u64, count: usize) -> Agreed {
    let random = &mut Random::new(seed);
    let sheet = from_seed(seed).records();
    for _ in 0..count {
        let (kind, bytes) = random.pick(&sheet);
        let mut value = RawValue::from(read(*kind, bytes).expect("a generated record is good"));
        for _ in 0..random.below(3) {
            let bound = *random.pick(&[0, 1, 9, 99, 999, 9999, 10_000, 99_999, 100_000, 999_999, 1_000_000]);
            let number = *random.pick(&[bound, -bound, bound + 1, -bound - 1, i32::MAX, i32::MIN]);
            value.numbers[random.below(16)] = number;
        }
        if random.percent(30) {
            value.name[random.below(40)] = random.below(256) as u8;
        }
        if random.percent(20) {
            value.kind = 1 + random.below(7) as u32;
        }
        if random.percent(20) {
            value.marks[random.below(2)] = *random.pick(&[0, 1, 1, 1, 2, u32::MAX]);
        }
        if random.percent(30) {
            value.letters = *random.pick(&[0, 0, 1, 1, 2, 2, 3, u32::MAX]);
        }
        let length = *random.pick(&[74, 74, 74, 75, 80, 148, 73, 1, 0]);
        let cut = *random.pick(&[0, 1, 73, 74, 75]);
        let longer: Vec<u8> = bytes.iter().chain(b"  ").copied().collect();
        if compare.turn() {
            compare.value(value, length)?;
            compare.record(*kind, &longer[..cut])?;
        }
    }
    Ok(())
}

/// Part 4: a sheet from outside, as it is and with changes to single bytes.
pub fn outside_sheet(compare: &mut Compare, sheet: &[u8], changes: usize) -> Agreed {
    compare.file(sheet)?;
    let random = &mut Random::new(sheet.len() as u64);
    for _ in 0..if sheet.is_empty() { 0 } else { changes } {
        let mut changed = sheet.to_vec();
        for _ in 0..1 + random.below(2) {
            let at = random.below(changed.len());
            changed[at] = *random.pick(b"0123456789 -\r\n\x81");
        }
        compare.file(&changed)?;
    }
    Ok(())
}

/// Part 5: a position in every mesh that six digits name; for some first digits and every last two, corners, edges and inside.
pub fn positions(compare: &mut Compare) -> Agreed {
    let places = [0, 10_000, 1, 9999, 5000, 3333, 7, -1, 10_001, i32::MIN, i32::MAX];
    for mesh in 100_000..=999_999 {
        compare.position(mesh, 3333, 9999)?;
    }
    for first in [1000, 1099, 3036, 4830, 5339, 5440, 6848, 9900, 9999] {
        for last in 0..100 {
            for x in places {
                for y in places {
                    compare.position(first * 100 + last, x, y)?;
                }
            }
        }
    }
    for mesh in [0, 1, 99_977, 99_999, 100_000, 999_977, 999_978, 1_000_000, 5_339_450, -533_945, i32::MIN, i32::MAX] {
        for x in places {
            compare.position(mesh, x, 5000)?;
        }
    }
    let random = &mut Random::new(5);
    for _ in 0..20_000 {
        let mesh = random.within(10_00, 99_99) * 100 + random.within(0, 7) * 10 + random.within(0, 7);
        compare.position(mesh, random.within(0, 10_000), random.within(0, 10_000))?;
    }
    Ok(())
}

/// Part 6: rows of records whose numbers lead the walk astray, `count` files. Every call is made, and due is asked of every record.
pub fn walks_astray(compare: &mut Compare, seed: u64, count: usize) -> Agreed {
    let every_record = std::mem::replace(&mut compare.every_record, true);
    let sparing = compare.sparing.take();
    let random = &mut Random::new(seed);
    let mut records = Records::new();
    for index in 0..count {
        if index % 100 == 0 {
            records = short_sheet(random, index % 200 == 0).records();
        }
        let file = astray(random, &records);
        if compare.turn() {
            compare.whole_file(&file, &verdict(&file))?;
        }
    }
    compare.every_record = every_record;
    compare.sparing = sparing;
    Ok(())
}

/// Part 6 also: each number that steers the walk as large as its field allows, but no larger than `most`, with all that it counts.
/// Due is asked of the records where the count ends, too.
pub fn full_counts(compare: &mut Compare, most: i32) -> Agreed {
    let sparing = compare.sparing.take();
    for kind in KINDS {
        for (index, field) in steering(kind).iter().map(|number| layout(kind).numbers[*number]).enumerate() {
            if compare.turn() {
                let file = counted(kind, index, most.min(10i32.pow(field.width() as u32) - 1));
                compare.whole_file(&file, &verdict(&file))?;
                let dues = dues(&file);
                let end = dues.len() as u32;
                (end - 10..end).try_for_each(|record| compare.due_at(&file, &dues, record))?;
            }
        }
    }
    compare.sparing = sparing;
    Ok(())
}

/// The large part: as many records as a file may have, one more, and faults at the last record.
pub fn large(compare: &mut Compare) -> Agreed {
    let most = crate::layout::MOST_RECORDS;
    let mut file = sheet_of(&mut Random::new(64), most).bytes();
    compare.file(&file)?;
    let end = file.len();
    file[end - 1] = b'\r';
    compare.file(&file)?;
    file[end - 1] = b'\n';
    file[end - 3] = b'x';
    compare.file(&file)?;
    file[end - 3] = b' ';
    file.push(b' ');
    compare.file(&file)?;
    file.pop();
    file.extend_from_within(..RECORD);
    compare.file(&file)?;
    file[end - 1] = b'\r';
    compare.file(&file)
}

//! Stages 1 and 2: the walk over the file, a layer at a time.

use super::fields::{blank, code, head_letters, in_step, letters, name, number, permit, Fault, Kept, Record, RECORD};
use second::records::Refusal;

/// A file has at most so many records.
const MOST_RECORDS: usize = 6_399_936;

/// Who is told of each layer and each mesh, as soon as it has been walked over.
pub trait Judge {
    fn layer(&mut self, layer: &Layer);
    fn mesh(&mut self, mesh: &Mesh);
}

/// A mesh: what its M tells and what was counted: nodes, lines, areas, the records behind the M.
pub struct Mesh {
    pub record: u32,
    pub told: [i32; 4],
    pub counted: [u32; 4],
}

/// A point, and a permitted coordinate is at most 10000.
pub type Point = (i16, i16);

/// What the later stages ask of a layer. An entry's place in a pair is 0 for +n and 1 for -n.
#[derive(Default)]
pub struct Layer {
    pub record: u32,
    /// 1 for H1, 2 for H2.
    pub letters: u32,
    pub told_records: i32,
    /// The records behind the H, which its total has to tell.
    pub behind: u32,
    pub nodes: Vec<Node>,
    pub node_entries: Vec<i32>,
    pub lines: Vec<Line>,
    /// Of each line: the node where +n starts, and the one where -n starts.
    pub ends: Vec<[i32; 2]>,
    /// Of each line: the area that +n stands in (the right one), and the one that -n stands in.
    pub sides: Vec<[i32; 2]>,
    pub measures: Vec<i64>,
    pub areas: Vec<Area>,
    pub loops: Vec<Loop>,
    pub entries: Vec<i32>,
}

#[derive(Clone, Copy)]
pub struct Node {
    pub place: Point,
    pub count: u8,
}

pub struct Line {
    pub record: u32,
    pub points: i32,
    pub links: [u8; 2],
    /// The first and the last point.
    pub points_at: [Point; 2],
    /// The codes of the right and of the left side.
    pub codes: [i32; 2],
}

pub struct Area {
    pub record: u32,
    pub code: i32,
    pub loops: u32,
    pub told_lines: i32,
}

/// A loop: its first record and its line count.
pub struct Loop {
    pub record: u32,
    pub count: u32,
}

impl Layer {
    /// Room for the next layer.
    fn clear(&mut self) {
        self.nodes.clear();
        self.node_entries.clear();
        self.lines.clear();
        self.ends.clear();
        self.sides.clear();
        self.measures.clear();
        self.areas.clear();
        self.loops.clear();
        self.entries.clear();
    }

    /// Nodes, lines and areas.
    pub fn counts(&self) -> [u32; 3] {
        [self.nodes.len() as u32, self.lines.len() as u32, self.areas.len() as u32]
    }
}

/// Stages 1 and 2. The answer is the number of records, or the first broken rule.
/// The walk looks at line ends too. Only if something is wrong the whole file's line ends go first.
pub fn early(file: &[u8], judge: &mut impl Judge) -> Result<u32, Refusal> {
    let walked = walk(file, judge);
    if walked.is_err() {
        stage_1(file)?;
    }
    walked
}

/// Stage 1: line ends, and then the length.
#[cold]
fn stage_1(file: &[u8]) -> Result<(), Refusal> {
    let records = file.chunks_exact(RECORD).take(MOST_RECORDS);
    for (k, record) in (1..).zip(records) {
        match (record[RECORD - 2], record[RECORD - 1]) {
            (b'\r', b'\n') => (),
            (b'\r', _) => return Err(Refusal { number: 2, record: k, column: 74 }),
            _ => return Err(Refusal { number: 2, record: k, column: 73 }),
        }
    }
    if length_kept(file) {
        return Ok(());
    }
    let record = (file.len() / RECORD).min(MOST_RECORDS) as u32 + 1;
    Err(Refusal { number: 1, record, column: 1 })
}

/// The length is that of 1 to 6,399,936 records.
fn length_kept(file: &[u8]) -> bool {
    !file.is_empty() && file.len() % RECORD == 0 && file.len() / RECORD <= MOST_RECORDS
}

/// Stage 2, and whether stage 1 is kept.
fn walk(file: &[u8], judge: &mut impl Judge) -> Result<u32, Refusal> {
    if !length_kept(file) {
        return Err(Refusal::default());
    }
    let mut walk = Walk { rest: file, done: 0, first_mesh: None, last_mesh: 0, layer: Layer::default() };
    while !walk.rest.is_empty() {
        let mesh = walk.mesh(judge)?;
        judge.mesh(&mesh);
    }
    Ok(walk.done)
}

struct Walk<'a> {
    rest: &'a [u8],
    /// How many records have been walked over.
    done: u32,
    /// The first four digits of the first mesh, and the code of the last one.
    first_mesh: Option<i32>,
    last_mesh: i32,
    layer: Layer,
}

impl<'a> Walk<'a> {
    /// The next record, with a right line end. Any other line end is stage 1's.
    #[inline(always)]
    fn due(&mut self) -> Result<&'a Record, Refusal> {
        let Some((record, rest)) = self.rest.split_first_chunk::<RECORD>() else {
            return Err(Refusal { number: 4, record: self.done + 1, column: 1 });
        };
        self.rest = rest;
        self.done += 1;
        if record[RECORD - 2..] != *b"\r\n" {
            return Err(Refusal::default());
        }
        Ok(record)
    }

    /// The fault's record is the one just walked over.
    #[inline(always)]
    fn here<T>(&self, kept: Kept<T>) -> Result<T, Refusal> {
        kept.map_err(|Fault { number, column }| Refusal { number, record: self.done, column })
    }

    /// One mesh: its M and its layers.
    fn mesh(&mut self, judge: &mut impl Judge) -> Result<Mesh, Refusal> {
        let record = self.due()?;
        let (code, layers, told) = self.here(self.mesh_record(record))?;
        self.last_mesh = code;
        self.first_mesh.get_or_insert(code / 100);
        let at = self.done;
        let mut counted = [0; 4];
        let mut last_layer = 0;
        for _ in 0..layers {
            last_layer = self.layer(last_layer)?;
            judge.layer(&self.layer);
            for (sum, count) in counted.iter_mut().zip(self.layer.counts()) {
                *sum += count;
            }
        }
        counted[3] = self.done - at;
        Ok(Mesh { record: at, told, counted })
    }

    /// An M: its code, its layers, and its totals of nodes, lines, areas, records.
    fn mesh_record(&self, record: &Record) -> Kept<(i32, i32, [i32; 4])> {
        letters(record, b"M ")?;
        let code = number(record, 3, 8)?;
        permit(3, (100_000..=999_999).contains(&code) && code / 10 % 10 <= 7 && code % 10 <= 7)?;
        in_step(3, self.last_mesh < code)?;
        in_step(3, self.first_mesh.is_none_or(|first| first == code / 100))?;
        name(record, 9, 28)?;
        let layers = number(record, 29, 31)?;
        permit(29, matches!(layers, 1 | 2))?;
        let nodes = total(record, 32, 36)?;
        let lines = total(record, 37, 41)?;
        let areas = total(record, 42, 46)?;
        zero(record, 47, 51)?;
        let records = total(record, 52, 56)?;
        blank(record, 57, 72)?;
        Ok((code, layers, [nodes, lines, areas, records]))
    }

    /// One layer. Its code has to be above the last one's.
    fn layer(&mut self, last_layer: i32) -> Result<i32, Refusal> {
        let record = self.due()?;
        let head = self.here(head_record(record, last_layer))?;
        self.layer.clear();
        self.layer.record = self.done;
        self.layer.letters = head.letters;
        self.layer.told_records = head.records;
        for serial in 1..=head.nodes {
            let record = self.due()?;
            let node = node_record(record, head.code, serial, &mut self.layer.node_entries);
            let node = self.here(node)?;
            self.layer.nodes.push(node);
        }
        for serial in 1..=head.lines {
            self.line(head.code, head.letters == 2, serial)?;
        }
        for serial in 1..=head.areas {
            self.area(head.code, serial)?;
        }
        self.layer.behind = self.done - self.layer.record;
        Ok(head.code)
    }

    /// A line: its L and its points. Of the points the measure, the first and the last are kept.
    fn line(&mut self, layer: i32, structured: bool, serial: i32) -> Result<(), Refusal> {
        let record = self.due()?;
        let mut line = self.here(line_record(record, layer, structured, serial))?;
        line.0.record = self.done;
        let mut left = line.0.points as usize;
        let mut first = None;
        let mut last = (0, 0);
        let mut measure = 0;
        while left > 0 {
            let record = self.due()?;
            let count = left.min(7);
            let points = self.here(coordinates_record(record, count))?;
            if first.is_none() {
                first = Some(points[0]);
                last = points[0];
            }
            for point in &points[..count] {
                measure += point.0 * last.1 - last.0 * point.1;
                last = *point;
            }
            left -= count;
        }
        line.0.points_at = [first.unwrap_or(last), last].map(|(x, y)| (x as i16, y as i16));
        self.layer.lines.push(line.0);
        self.layer.ends.push(line.1);
        self.layer.sides.push(line.2);
        self.layer.measures.push(measure);
        Ok(())
    }

    /// An area: its A and its loops. Loop serials run 1, -2, -3 and on.
    fn area(&mut self, layer: i32, serial: i32) -> Result<(), Refusal> {
        let record = self.due()?;
        let mut area = self.here(area_record(record, layer, serial))?;
        area.record = self.done;
        for loop_number in 1..=area.loops as i32 {
            self.one_loop(if loop_number == 1 { 1 } else { -loop_number })?;
        }
        self.layer.areas.push(area);
        Ok(())
    }

    /// A loop, twelve entries a record.
    fn one_loop(&mut self, serial: i32) -> Result<(), Refusal> {
        let record = self.done + 1;
        let mut first_count = None;
        let mut read = 0;
        loop {
            let bytes = self.due()?;
            let kept = loop_record(bytes, serial, first_count, read, &mut self.layer.entries);
            let count = self.here(kept)?;
            first_count = Some(count);
            read += 12;
            if read >= count {
                self.layer.loops.push(Loop { record, count: count as u32 });
                return Ok(());
            }
        }
    }
}

/// A total that is 0 or more.
#[inline(always)]
fn total(record: &Record, start: usize, end: usize) -> Kept<i32> {
    let total = number(record, start, end)?;
    permit(start, total >= 0)?;
    Ok(total)
}

/// A number that is 0.
#[inline(always)]
fn zero(record: &Record, start: usize, end: usize) -> Kept<()> {
    let number = number(record, start, end)?;
    permit(start, number == 0)
}

/// X or Y, 0 to 10000.
#[inline(always)]
fn coordinate(record: &Record, start: usize) -> Kept<i32> {
    let coordinate = number(record, start, start + 4)?;
    permit(start, (0..=10_000).contains(&coordinate))?;
    Ok(coordinate)
}

/// A date: year times 100 plus month, or 0.
fn date(record: &Record, start: usize, end: usize) -> Kept<()> {
    let date = number(record, start, end)?;
    permit(start, date == 0 || (0..=9999).contains(&date) && (1..=12).contains(&(date % 100)))
}

/// The layer code is 1 or 5, and that of its H.
#[inline(always)]
fn belongs(record: &Record, layer: i32) -> Kept<()> {
    let code = number(record, 3, 4)?;
    permit(3, matches!(code, 1 | 5))?;
    in_step(3, code == layer)
}

/// Codes run from 1 in layer 1 and from 0 in layer 5, where 0 is land.
#[inline(always)]
fn code_permitted(layer: i32, code: i32) -> bool {
    (1..=99_999).contains(&code) || layer == 5 && code == 0
}

/// What an H tells.
struct Head {
    /// 1 for H1, 2 for H2.
    letters: u32,
    code: i32,
    nodes: i32,
    lines: i32,
    areas: i32,
    records: i32,
}

/// An H. Its code has to be above the last one's.
fn head_record(record: &Record, last_layer: i32) -> Kept<Head> {
    let letters = head_letters(record)?;
    let code = number(record, 3, 4)?;
    permit(3, matches!(code, 1 | 5))?;
    in_step(3, last_layer < code)?;
    let nodes = total(record, 5, 9)?;
    let lines = total(record, 10, 14)?;
    permit(10, lines <= 9999)?;
    let areas = total(record, 15, 19)?;
    permit(15, letters == 2 || areas == 0)?;
    zero(record, 20, 24)?;
    let records = total(record, 25, 29)?;
    blank(record, 30, 30)?;
    date(record, 31, 34)?;
    blank(record, 35, 35)?;
    date(record, 36, 39)?;
    blank(record, 40, 72)?;
    Ok(Head { letters, code, nodes, lines, areas, records })
}

/// X or Y is 0 or 10000.
pub fn on_frame(x: i16, y: i16) -> bool {
    matches!(x, 0 | 10_000) || matches!(y, 0 | 10_000)
}

/// An N. Its entries go behind those of the nodes before.
fn node_record(record: &Record, layer: i32, serial: i32, entries: &mut Vec<i32>) -> Kept<Node> {
    letters(record, b"N ")?;
    belongs(record, layer)?;
    let item = number(record, 5, 6)?;
    permit(5, if layer == 1 { matches!(item, 1..=4) } else { matches!(item, 1 | 6 | 8) })?;
    let told = number(record, 7, 11)?;
    in_step(7, told == serial)?;
    let x = coordinate(record, 12)? as i16;
    let y = coordinate(record, 17)? as i16;
    let frame = number(record, 22, 23)?;
    permit(22, frame == i32::from(on_frame(x, y)))?;
    let count = number(record, 24, 25)?;
    permit(24, (1..=9).contains(&count))?;
    let slots = slots::<9>(record, 26, count as usize)?;
    blank(record, 71, 72)?;
    entries.extend_from_slice(&slots[..count as usize]);
    Ok(Node { place: (x, y), count: count as u8 })
}

/// Slots within the count are not 0, slots past it are 0.
#[inline(always)]
fn slots<const SLOTS: usize>(record: &Record, first: usize, count: usize) -> Kept<[i32; SLOTS]> {
    let mut slots = [0; SLOTS];
    for (index, slot) in slots.iter_mut().enumerate() {
        let column = first + 5 * index;
        *slot = number(record, column, column + 4)?;
        permit(column, (*slot != 0) == (index < count))?;
    }
    Ok(slots)
}

/// An L: the line, its ends and its sides. Its record number and its points follow later.
fn line_record(record: &Record, layer: i32, structured: bool, serial: i32) -> Kept<(Line, [i32; 2], [i32; 2])> {
    letters(record, b"L ")?;
    belongs(record, layer)?;
    let item = number(record, 5, 6)?;
    permit(5, if layer == 1 { matches!(item, 1..=5 | 9) } else { matches!(item, 2 | 9) })?;
    let told = number(record, 7, 11)?;
    in_step(7, told == serial)?;
    let kind = number(record, 12, 17)?;
    permit(12, matches!(kind, 1 | 2 | 9) || layer == 1 && kind == 0)?;
    permit(12, (kind == 9) == (item == 9))?;
    let start = number(record, 18, 22)?;
    let start_link = link(record, 23)?;
    let end = number(record, 24, 28)?;
    let end_link = link(record, 29)?;
    let (left_code, left) = side(record, layer, structured, 30)?;
    let (right_code, right) = side(record, layer, structured, 40)?;
    let points = number(record, 50, 55)?;
    permit(50, points >= 2)?;
    zero(record, 56, 57)?;
    zero(record, 58, 60)?;
    blank(record, 61, 72)?;
    let line = Line {
        record: 0,
        points,
        links: [start_link, end_link],
        points_at: [(0, 0); 2],
        codes: [right_code, left_code],
    };
    Ok((line, [start, end], [right, left]))
}

/// A link, 0 to 2.
#[inline(always)]
fn link(record: &Record, column: usize) -> Kept<u8> {
    let link = number(record, column, column)?;
    permit(column, link <= 2)?;
    Ok(link as u8)
}

/// One side: the code, and the area five columns on. The area is 0 exactly if the code is 88888. Both are 0 in an
/// unstructured layer.
#[inline(always)]
fn side(record: &Record, layer: i32, structured: bool, column: usize) -> Kept<(i32, i32)> {
    let (code, _) = code(record, column)?;
    permit(column, if structured { code_permitted(layer, code) } else { code == 0 })?;
    let area = number(record, column + 5, column + 9)?;
    permit(column + 5, if structured { area >= 0 && (area == 0) == (code == 88888) } else { area == 0 })?;
    Ok((code, area))
}

/// So many points; what stands past them is 0.
#[inline(always)]
fn coordinates_record(record: &Record, count: usize) -> Kept<[(i64, i64); 7]> {
    let mut points = [(0, 0); 7];
    for (index, point) in points.iter_mut().enumerate() {
        let most = if index < count { 10_000 } else { 0 };
        let column = 1 + 10 * index;
        let x = number(record, column, column + 4)?;
        permit(column, (0..=most).contains(&x))?;
        let y = number(record, column + 5, column + 9)?;
        permit(column + 5, (0..=most).contains(&y))?;
        *point = (i64::from(x), i64::from(y));
    }
    blank(record, 71, 72)?;
    Ok(points)
}

/// An A, without its record number.
fn area_record(record: &Record, layer: i32, serial: i32) -> Kept<Area> {
    letters(record, b"A ")?;
    belongs(record, layer)?;
    let (code, _) = code(record, 5)?;
    permit(5, code_permitted(layer, code) && code != 88888)?;
    let told = number(record, 10, 14)?;
    in_step(10, told == serial)?;
    coordinate(record, 15)?;
    coordinate(record, 20)?;
    let loops = number(record, 25, 28)?;
    permit(25, loops >= 1)?;
    let told_lines = number(record, 29, 32)?;
    permit(29, told_lines >= 1)?;
    name(record, 33, 72)?;
    Ok(Area { record: 0, code, loops: loops as u32, told_lines })
}

/// A loop record; so many entries were read before. Later records repeat the first one's count. The answer is the count.
fn loop_record(
    record: &Record,
    serial: i32,
    first_count: Option<i32>,
    read: i32,
    entries: &mut Vec<i32>,
) -> Kept<i32> {
    let told = number(record, 1, 5)?;
    in_step(1, told == serial)?;
    let count = number(record, 6, 9)?;
    permit(6, count >= 1)?;
    in_step(6, count == first_count.unwrap_or(count))?;
    let here = (count - read).min(12) as usize;
    let slots = slots::<12>(record, 10, here)?;
    blank(record, 70, 72)?;
    entries.extend_from_slice(&slots[..here]);
    Ok(count)
}

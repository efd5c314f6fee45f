//! Stages 1 and 2: the walk over the file, and what it finds.

use crate::layout::{a, h, l, layout, lp, m, n, Kind, Sort, MOST_RECORDS, RECORD, STRUCTURED};
use crate::positions::{coordinate_permitted, mesh_permitted};
use crate::records::{held, letters, well_formed, wrong_line_end, Broken, Refusal};

/// What stage 2 finds in a file. Record numbers count from 1.
pub struct Found {
    pub records: u32,
    pub meshes: Vec<Mesh>,
}

pub struct Mesh {
    pub record: u32,
    pub code: i32,
    /// The totals that the M tells: nodes, lines, areas, records.
    pub told: [i32; 4],
    /// The records behind the M up to the mesh's last one, its H records among them: what its total has to tell.
    pub behind: u32,
    pub layers: Vec<Layer>,
}

pub struct Layer {
    pub record: u32,
    pub code: i32,
    /// 1 for H1, 2 for H2.
    pub letters: u32,
    /// The records that the H tells.
    pub told_records: i32,
    /// The records behind the H up to the layer's last one: what its total has to tell. 0 for an H alone.
    pub behind: u32,
    pub nodes: Vec<Node>,
    pub lines: Vec<Line>,
    pub areas: Vec<Area>,
}

pub struct Node {
    pub record: u32,
    pub place: Point,
    pub on_frame: bool,
    pub entries: Vec<i32>,
}

pub struct Line {
    pub record: u32,
    pub start: i32,
    pub start_link: i32,
    pub end: i32,
    pub end_link: i32,
    pub left_code: i32,
    pub left: i32,
    pub right_code: i32,
    pub right: i32,
    pub points: Vec<Point>,
}

pub struct Area {
    pub record: u32,
    pub code: i32,
    pub told_lines: i32,
    pub loops: Vec<Loop>,
}

pub struct Loop {
    /// The loop's first record.
    pub record: u32,
    pub entries: Vec<i32>,
}

/// A permitted coordinate is at most 10000, so two bytes hold it.
pub type Point = (i16, i16);

impl Found {
    pub fn layers(&self) -> impl Iterator<Item = &Layer> {
        self.meshes.iter().flat_map(|mesh| &mesh.layers)
    }
}

impl Loop {
    /// The record and the column of an entry.
    pub fn slot(&self, entry: usize) -> (u32, u32) {
        (self.record + (entry / 12) as u32, 10 + 5 * (entry % 12) as u32)
    }
}

/// Record k of a file: the caller's own 74 bytes, or an empty part.
pub fn record(file: &[u8], k: usize) -> &[u8] {
    if k == 0 || k > file.len() / RECORD {
        return &[];
    }
    &file[(k - 1) * RECORD..k * RECORD]
}

/// Stage 1: the length and the line ends.
pub fn stage_1(file: &[u8]) -> Result<(), Refusal> {
    let mut broken = Broken::default();
    let whole = file.len() / RECORD;
    if whole > MOST_RECORDS {
        broken.rule(1, MOST_RECORDS as u32 + 1, 1);
    } else if file.is_empty() || file.len() % RECORD != 0 {
        broken.rule(1, whole as u32 + 1, 1);
    }
    for k in 1..=whole {
        if let Some(column) = wrong_line_end(record(file, k)) {
            broken.rule(2, k as u32, column);
        }
    }
    broken.result()
}

/// Stage 2: the walk. It stops at the first record with a broken rule.
/// The kinds of the records walked over, that last one among them, go to a list.
pub fn stage_2(file: &[u8], kinds: &mut Vec<Kind>) -> Result<Found, Refusal> {
    let mut walk = Walk { file, done: 0, kinds };
    let mut meshes: Vec<Mesh> = Vec::new();
    while walk.left() > 0 {
        let mesh = walk.mesh(&meshes)?;
        meshes.push(mesh);
    }
    Ok(Found { records: walk.done as u32, meshes })
}

struct Walk<'a> {
    file: &'a [u8],
    done: usize,
    kinds: &'a mut Vec<Kind>,
}

impl Walk<'_> {
    fn left(&self) -> usize {
        self.file.len() / RECORD - self.done
    }

    /// The next record, which is to be of this kind.
    fn due(&mut self, kind: Kind) -> Result<Look, Refusal> {
        self.done += 1;
        let bytes = record(self.file, self.done);
        if bytes.is_empty() {
            return Err(Refusal { number: 4, record: self.done as u32, column: 1 });
        }
        self.kinds.push(kind);
        Ok(Look::at(kind, self.done as u32, bytes))
    }

    fn mesh(&mut self, before: &[Mesh]) -> Result<Mesh, Refusal> {
        let mut look = self.due(Kind::M)?;
        let code = look.value(m::MESH);
        look.permit(m::MESH, mesh_permitted(code));
        look.in_step(m::MESH, before.last().is_none_or(|last| last.code < code));
        look.in_step(m::MESH, before.first().is_none_or(|first| first.code / 100 == code / 100));
        look.permit(m::LAYERS, matches!(look.value(m::LAYERS), 1 | 2));
        for total in [m::NODES, m::LINES, m::AREAS, m::RECORDS] {
            look.permit(total, look.value(total) >= 0);
        }
        look.permit(m::POINTS, look.value(m::POINTS) == 0);
        let (record, values) = look.result()?;

        let mut layers = Vec::new();
        for _ in 0..values[m::LAYERS] {
            let layer = self.layer(&layers)?;
            layers.push(layer);
        }
        Ok(Mesh {
            record,
            code,
            told: [values[m::NODES], values[m::LINES], values[m::AREAS], values[m::RECORDS]],
            behind: self.done as u32 - record,
            layers,
        })
    }

    fn layer(&mut self, before: &[Layer]) -> Result<Layer, Refusal> {
        let mut look = self.due(Kind::H)?;
        let code = look.value(h::LAYER);
        look.permit(h::LAYER, matches!(code, 1 | 5));
        look.in_step(h::LAYER, before.iter().all(|layer| layer.code < code));
        look.permit(h::LINES, (0..=9999).contains(&look.value(h::LINES)));
        for total in [h::NODES, h::AREAS, h::RECORDS] {
            look.permit(total, look.value(total) >= 0);
        }
        let structured = look.letters == STRUCTURED;
        look.permit(h::AREAS, structured || look.value(h::AREAS) == 0);
        look.permit(h::POINTS, look.value(h::POINTS) == 0);
        for date in [h::FIRST_MADE, h::LAST_CHANGED] {
            look.permit(date, date_permitted(look.value(date)));
        }
        let letters = look.letters;
        let (record, values) = look.result()?;

        let mut layer = Layer {
            record,
            code,
            letters,
            told_records: values[h::RECORDS],
            behind: 0,
            nodes: Vec::new(),
            lines: Vec::new(),
            areas: Vec::new(),
        };
        for serial in 1..=values[h::NODES] {
            layer.nodes.push(self.node(code, serial)?);
        }
        for serial in 1..=values[h::LINES] {
            layer.lines.push(self.line(code, structured, serial)?);
        }
        for serial in 1..=values[h::AREAS] {
            layer.areas.push(self.area(code, serial)?);
        }
        layer.behind = self.done as u32 - record;
        Ok(layer)
    }

    fn node(&mut self, layer: i32, serial: i32) -> Result<Node, Refusal> {
        let mut look = self.due(Kind::N)?;
        look.belongs(n::LAYER, layer);
        look.permit(n::ITEM, node_item_permitted(layer, look.value(n::ITEM)));
        look.in_step(n::SERIAL, look.value(n::SERIAL) == serial);
        let (x, y) = (look.value(n::X), look.value(n::Y));
        look.permit(n::X, coordinate_permitted(x));
        look.permit(n::Y, coordinate_permitted(y));
        let on_frame = [0, 10_000].contains(&x) || [0, 10_000].contains(&y);
        look.permit(n::FRAME, look.value(n::FRAME) == i32::from(on_frame));
        let count = look.value(n::COUNT);
        look.permit(n::COUNT, (1..=9).contains(&count));
        look.slots(n::SLOTS, 9, count);
        let (record, values) = look.result()?;
        Ok(Node {
            record,
            place: (x as i16, y as i16),
            on_frame,
            entries: values[n::SLOTS..n::SLOTS + count as usize].to_vec(),
        })
    }

    fn line(&mut self, layer: i32, structured: bool, serial: i32) -> Result<Line, Refusal> {
        let mut look = self.due(Kind::L)?;
        look.belongs(l::LAYER, layer);
        let item = look.value(l::ITEM);
        look.permit(l::ITEM, line_item_permitted(layer, item));
        look.in_step(l::SERIAL, look.value(l::SERIAL) == serial);
        let kind = look.value(l::KIND);
        look.permit(l::KIND, line_kind_permitted(layer, kind));
        look.permit(l::KIND, (kind == 9) == (item == 9));
        for link in [l::START_LINK, l::END_LINK] {
            look.permit(link, (0..=2).contains(&look.value(link)));
        }
        for (code, area) in [(l::LEFT_CODE, l::LEFT_AREA), (l::RIGHT_CODE, l::RIGHT_AREA)] {
            if structured {
                look.permit(code, code_permitted(layer, look.value(code)));
                look.permit(area, look.value(area) >= 0);
                look.permit(area, (look.value(area) == 0) == (look.value(code) == 88888));
            } else {
                look.permit(code, look.value(code) == 0);
                look.permit(area, look.value(area) == 0);
            }
        }
        look.permit(l::POINTS, look.value(l::POINTS) >= 2);
        look.permit(l::ATTRIBUTES, look.value(l::ATTRIBUTES) == 0);
        look.permit(l::INNER_ATTRIBUTES, look.value(l::INNER_ATTRIBUTES) == 0);
        let (record, values) = look.result()?;
        Ok(Line {
            record,
            start: values[l::START],
            start_link: values[l::START_LINK],
            end: values[l::END],
            end_link: values[l::END_LINK],
            left_code: values[l::LEFT_CODE],
            left: values[l::LEFT_AREA],
            right_code: values[l::RIGHT_CODE],
            right: values[l::RIGHT_AREA],
            points: self.points(values[l::POINTS] as usize)?,
        })
    }

    /// The points of a line, seven a record.
    fn points(&mut self, count: usize) -> Result<Vec<Point>, Refusal> {
        let mut points = Vec::with_capacity(count.min(7 * self.left()));
        while points.len() < count {
            let here = (count - points.len()).min(7);
            let mut look = self.due(Kind::Coordinates)?;
            for index in 0..14 {
                let value = look.value(index);
                look.permit(index, if index < 2 * here { coordinate_permitted(value) } else { value == 0 });
            }
            let (_, values) = look.result()?;
            points.extend((0..here).map(|k| (values[2 * k] as i16, values[2 * k + 1] as i16)));
        }
        Ok(points)
    }

    fn area(&mut self, layer: i32, serial: i32) -> Result<Area, Refusal> {
        let mut look = self.due(Kind::A)?;
        look.belongs(a::LAYER, layer);
        let code = look.value(a::CODE);
        look.permit(a::CODE, code_permitted(layer, code) && code != 88888);
        look.in_step(a::SERIAL, look.value(a::SERIAL) == serial);
        for coordinate in [a::X, a::Y] {
            look.permit(coordinate, coordinate_permitted(look.value(coordinate)));
        }
        for total in [a::LOOPS, a::LINES] {
            look.permit(total, look.value(total) >= 1);
        }
        let (record, values) = look.result()?;
        let mut loops = Vec::new();
        for number in 1..=values[a::LOOPS] {
            loops.push(self.one_loop(loop_serial(number))?);
        }
        Ok(Area { record, code, told_lines: values[a::LINES], loops })
    }

    /// The entries of a loop, twelve a record.
    fn one_loop(&mut self, serial: i32) -> Result<Loop, Refusal> {
        let first = self.done as u32 + 1;
        let mut entries = Vec::new();
        let mut first_count = None;
        loop {
            let mut look = self.due(Kind::Loop)?;
            look.in_step(lp::SERIAL, look.value(lp::SERIAL) == serial);
            let count = look.value(lp::COUNT);
            look.permit(lp::COUNT, count >= 1);
            look.in_step(lp::COUNT, count == first_count.unwrap_or(count));
            let here = (count - entries.len() as i32).min(12);
            look.slots(lp::SLOTS, 12, here);
            let (_, values) = look.result()?;
            entries.extend(&values[lp::SLOTS..lp::SLOTS + here as usize]);
            first_count = Some(count);
            if entries.len() as i32 == count {
                return Ok(Loop { record: first, entries });
            }
        }
    }
}

/// Loop serials run 1, -2, -3 and on.
pub fn loop_serial(number: i32) -> i32 {
    if number == 1 {
        1
    } else {
        -number
    }
}

fn date_permitted(date: i32) -> bool {
    date == 0 || (0..=99).contains(&date.div_euclid(100)) && (1..=12).contains(&date.rem_euclid(100))
}

fn node_item_permitted(layer: i32, item: i32) -> bool {
    if layer == 1 {
        matches!(item, 1..=4)
    } else {
        matches!(item, 1 | 6 | 8)
    }
}

fn line_item_permitted(layer: i32, item: i32) -> bool {
    if layer == 1 {
        matches!(item, 1..=5 | 9)
    } else {
        matches!(item, 2 | 9)
    }
}

fn line_kind_permitted(layer: i32, kind: i32) -> bool {
    matches!(kind, 1 | 2 | 9) || layer == 1 && kind == 0
}

/// Codes run from 1 in layer 1 and from 0 in layer 5, where 0 is land.
fn code_permitted(layer: i32, code: i32) -> bool {
    (1..=99999).contains(&code) || layer == 5 && code == 0
}

/// A look at one record: its numbers, and every broken rule of it.
/// An ill-formed number counts as 0. Its 5 stands before all that follows from that:
/// every rule looks at its own column and at columns before it.
struct Look {
    kind: Kind,
    record: u32,
    /// As in the record's value; 0 if they are wrong.
    letters: u32,
    values: [Option<i32>; 16],
    broken: Broken,
}

impl Look {
    fn at(kind: Kind, record: u32, bytes: &[u8]) -> Look {
        let mut look = Look { kind, record, letters: 0, values: [None; 16], broken: Broken::default() };
        match letters(kind, bytes) {
            Some(letters) => look.letters = letters,
            None => look.broken.rule(3, record, 1),
        }
        let layout = layout(kind);
        for (index, field) in layout.numbers.iter().enumerate() {
            look.values[index] = held(field, bytes).map(|(number, _)| number);
            if look.values[index].is_none() {
                look.broken.rule(5, record, field.start as u32);
            }
        }
        for field in layout.fields.iter().filter(|field| matches!(field.sort, Sort::Name | Sort::Blank)) {
            if !well_formed(field, bytes) {
                look.broken.rule(5, record, field.start as u32);
            }
        }
        look
    }

    fn value(&self, index: usize) -> i32 {
        self.values[index].unwrap_or(0)
    }

    /// A rule about a well-formed number.
    fn rule(&mut self, number: u32, index: usize, kept: bool) {
        if self.values[index].is_some() && !kept {
            self.broken.rule(number, self.record, layout(self.kind).column(index));
        }
    }

    fn permit(&mut self, index: usize, kept: bool) {
        self.rule(6, index, kept);
    }

    fn in_step(&mut self, index: usize, kept: bool) {
        self.rule(8, index, kept);
    }

    /// The layer code is 1 or 5, and that of its H.
    fn belongs(&mut self, index: usize, layer: i32) {
        let code = self.value(index);
        self.permit(index, matches!(code, 1 | 5));
        self.in_step(index, code == layer);
    }

    /// Slots within the count are not 0, slots past it are 0.
    fn slots(&mut self, first: usize, slots: usize, count: i32) {
        for slot in 0..slots {
            let within = (slot as i32) < count;
            self.permit(first + slot, (self.value(first + slot) != 0) == within);
        }
    }

    /// The record number and the numbers, if no rule is broken.
    fn result(self) -> Result<(u32, [i32; 16]), Refusal> {
        self.broken.result()?;
        Ok((self.record, self.values.map(|value| value.unwrap_or(0))))
    }
}

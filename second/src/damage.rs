//! Damages of every sort, by seed: to the sheet in memory, to its records, to its bytes.

use crate::due::dues;
use crate::fields::{number, spelled, CODE, LAND};
use crate::layout::{a, codes, h, l, layout, lp, m, records_total};
use crate::layout::{Field, Kind, Sort, RECORD, STRUCTURED, UNSTRUCTURED};
use crate::random::Random;
use crate::sheet::{joined, sheet_s, Area, Layer, Line, Node, Records, Sheet, Side, NOTHING, OUTSIDE};

/// A sheet with one to four damages.
pub fn damaged(random: &mut Random, sheet: &Sheet) -> Vec<u8> {
    let mut sheet = sheet.clone();
    let mut counts = [0; 3];
    for _ in 0..*random.pick(&[1, 1, 1, 1, 2, 2, 3, 4]) {
        counts[*random.pick(&[0, 0, 0, 0, 0, 0, 0, 1, 1, 1, 1, 2])] += 1;
    }
    for _ in 0..counts[0] {
        damage_sheet(random, &mut sheet);
    }
    let mut records = sheet.records();
    for _ in 0..counts[1] {
        damage_records(random, &mut records);
    }
    let mut bytes = joined(&records);
    for _ in 0..counts[2] {
        damage_bytes(random, &mut bytes);
    }
    bytes
}

// Damages to the sheet. Totals and serials stay right, so the later stages speak.

fn damage_sheet(random: &mut Random, sheet: &mut Sheet) {
    if random.percent(6) {
        return damage_order(random, sheet);
    }
    let mesh = random.below(sheet.meshes.len());
    let layers = &mut sheet.meshes[mesh].layers;
    let chosen = random.below(layers.len());
    let layer = &mut layers[chosen];
    if random.percent(5) {
        return damage_letters(random, layer);
    }
    if layer.lines.is_empty() || layer.nodes.is_empty() {
        return;
    }
    match (random.below(10), layer.letters) {
        (0 | 1, _) => damage_node(random, layer),
        (2..=4, _) => damage_line(random, layer),
        (5..=8, STRUCTURED) => damage_area(random, layer),
        (5 | 6, _) => damage_node(random, layer),
        (7 | 8, _) => tell_of_areas(random, layer),
        _ => damage_list(random, layer),
    }
}

/// Meshes and layers out of order, missing or twice.
fn damage_order(random: &mut Random, sheet: &mut Sheet) {
    let count = sheet.meshes.len();
    let (one, two) = (random.below(count), random.below(count));
    let layers = sheet.meshes[one].layers.len();
    match random.below(8) {
        0 => sheet.meshes.swap(one, two),
        1 => sheet.meshes[one].layers.swap(0, layers - 1),
        2 => {
            let again = sheet.meshes[one].clone();
            sheet.meshes.insert(two, again);
        }
        3 => {
            let code = sheet.meshes[one].code + *random.pick(&[1, 8, 80, 100, 1000, -1, -10]);
            sheet.meshes[one].code = code.min(999_999);
        }
        4 => {
            let mut again = sheet.meshes[one].layers[0].clone();
            again.letters = *random.pick(&[UNSTRUCTURED, STRUCTURED]);
            sheet.meshes[one].layers.push(again);
        }
        5 if count > 1 => {
            sheet.meshes.remove(one);
        }
        6 if layers > 1 => {
            sheet.meshes[one].layers.remove(0);
        }
        _ => {
            let layer = &mut sheet.meshes[one].layers[0];
            layer.code = *random.pick(&[1, 5, 0, 2]);
        }
    }
}

/// The other letters, what goes with them, or both. With all of it the layer is right again.
fn damage_letters(random: &mut Random, layer: &mut Layer) {
    let goes = random.below(4);
    let (letters, side) =
        if layer.letters == STRUCTURED { (UNSTRUCTURED, NOTHING) } else { (STRUCTURED, OUTSIDE) };
    if goes != 1 {
        layer.letters = letters;
    }
    if goes > 1 {
        layer.areas.clear();
    }
    if goes % 2 == 1 {
        layer.lines.iter_mut().for_each(|line| (line.left, line.right) = (side, side));
    }
}

/// An unstructured layer tells of an area: in a code or an area number of a line, or with an area of its own.
fn tell_of_areas(random: &mut Random, layer: &mut Layer) {
    let index = random.below(layer.lines.len());
    let Line { left, right, .. } = &mut layer.lines[index];
    let side = if random.percent(50) { left } else { right };
    match random.below(10) {
        0..=3 => side.code = *random.pick(&[88888, 88888, 1, 13101, 99999, -1]),
        4..=7 => side.area = *random.pick(&[1, 1, 2, 9999, 88888, -1]),
        8 => *side = OUTSIDE,
        _ => layer.areas.push(sheet_s().meshes[0].layers[0].areas[0].clone()),
    }
}

fn damage_node(random: &mut Random, layer: &mut Layer) {
    let lines = layer.lines.len() as i32;
    let other = *random.pick(&layer.nodes[..]).entries.first().expect("a node has an entry");
    let index = any_or_longest(random, &layer.nodes, |node| node.entries.len());
    let Node { item, place, entries } = &mut layer.nodes[index];
    let slot = late(random, entries.len());
    match random.below(10) {
        0 if entries.len() > 1 => {
            entries.remove(slot);
        }
        1 if entries.len() < 9 => entries.push(entries[slot]),
        2 => entries[slot] = entries[0],
        3 => entries[slot] = negated(entries[slot]),
        4 => entries[slot] = random_entry(random, lines),
        5 if entries.len() < 9 => entries.push(random_entry(random, lines)),
        6 => entries[slot] = other,
        7 => place.0 = moved(random, place.0),
        8 => place.1 = moved(random, place.1),
        9 => *item = *random.pick(&[1, 6, 3, 5, 0]),
        _ => entries.reverse(),
    }
}

/// Any member of a list, or the longest by some length.
fn any_or_longest<T>(random: &mut Random, list: &[T], length: fn(&T) -> usize) -> usize {
    let any = random.below(list.len());
    if random.percent(50) {
        return any;
    }
    (0..list.len()).max_by_key(|index| length(&list[*index])).unwrap_or(any)
}

/// A place below a bound, rather late than early.
fn late(random: &mut Random, bound: usize) -> usize {
    random.below(bound).max(random.below(bound))
}

/// A line number of the layer or one past its lines, with any sign.
fn random_entry(random: &mut Random, lines: i32) -> i32 {
    let any = random.within(1, lines);
    let number = *random.pick(&[any, any, any, lines + 1, lines + 1, 9999]);
    if random.percent(50) {
        number
    } else {
        negated(number)
    }
}

/// The entry walked the other way. Five columns hold -9999 at least.
fn negated(entry: i32) -> i32 {
    (-entry).max(-9999)
}

fn moved(random: &mut Random, coordinate: i32) -> i32 {
    let place = coordinate + *random.pick(&[1, -1, 2, 100, -100, 0]);
    *random.pick(&[place, place, place, 0, 10_000]).min(&10_001).max(&0)
}

fn damage_line(random: &mut Random, layer: &mut Layer) {
    let nodes = layer.nodes.len() as i32;
    let side = random_side(random, &layer.areas);
    let code = *random.pick(&[0, 1, 13101, 88888, 99999]);
    let index = random.below(layer.lines.len());
    let end = random.below(2);
    let Line { item, kind, ends, left, right, points } = &mut layer.lines[index];
    let last = if end == 0 { 0 } else { points.len() - 1 };
    match random.below(16) {
        0 => std::mem::swap(left, right),
        1 => std::mem::swap(&mut left.code, &mut right.code),
        2 => std::mem::swap(&mut left.area, &mut right.area),
        3 => *left = side,
        4 => *right = side,
        5 => *left = *right,
        6 => right.code = code,
        7 => ends[end].node = random.within(-1, nodes + 1),
        8 => ends[end].link = random.within(0, 3),
        9 => ends.reverse(),
        10 => points.reverse(),
        11 => points[last].0 = moved(random, points[last].0),
        12 => points[last].1 = moved(random, points[last].1),
        13 => change_points(random, points),
        14 => *kind = *random.pick(&[0, 1, 2, 9, 3]),
        _ => *item = random.within(0, 10),
    }
}

/// A side that names an area of the layer, or none, or one that is not there.
fn random_side(random: &mut Random, areas: &[Area]) -> Side {
    let number = random.below(areas.len() + 2);
    match (number.checked_sub(1).map(|index| areas.get(index)), random.percent(50)) {
        (Some(Some(area)), _) => Side { code: area.code, zeros: area.zeros, area: number as i32 },
        (None, true) => OUTSIDE,
        _ => Side { code: 13101, zeros: true, area: number as i32 },
    }
}

fn change_points(random: &mut Random, points: &mut Vec<(i32, i32)>) {
    let index = random.below(points.len());
    let first = points[0];
    match random.below(5) {
        0 if points.len() > 2 => {
            points.remove(index);
        }
        1 => points.insert(index, points[index]),
        2 => points.insert(index, (random.within(0, 10_000), random.within(0, 10_000))),
        3 => points.iter_mut().for_each(|point| *point = first),
        _ => points.truncate(index.max(2)),
    }
}

fn damage_area(random: &mut Random, layer: &mut Layer) {
    if layer.areas.is_empty() {
        return;
    }
    let lines = layer.lines.len() as i32;
    let areas = layer.areas.len();
    let longest = |area: &Area| area.loops.iter().map(Vec::len).max().unwrap_or(0);
    let (one, two) = (any_or_longest(random, &layer.areas, longest), random.below(areas));
    match random.below(9) {
        0 => move_hole(random, &mut layer.areas, one, two),
        1 => move_entry(random, &mut layer.areas, one, two),
        2 => layer.areas[one].code = *random.pick(&[0, 1, 13101, 88888, 99999]),
        3 => layer.areas.swap(one, two),
        4 | 5 => damage_loops(random, &mut layer.areas[one].loops, lines),
        _ => {
            let many: Vec<usize> = (0..areas).filter(|k| layer.areas[*k].loops.len() > 1).collect();
            let chosen = if many.is_empty() { one } else { *random.pick(&many) };
            damage_loops(random, &mut layer.areas[chosen].loops, lines)
        }
    }
}

/// A hole listed in the wrong area.
fn move_hole(random: &mut Random, areas: &mut [Area], one: usize, two: usize) {
    if areas[one].loops.len() > 1 {
        let hole = 1 + random.below(areas[one].loops.len() - 1);
        let moved = areas[one].loops.remove(hole);
        areas[two].loops.push(moved);
    }
}

/// A line listed in the wrong area.
fn move_entry(random: &mut Random, areas: &mut [Area], one: usize, two: usize) {
    let from = random.below(areas[one].loops.len());
    if areas[one].loops[from].len() > 1 {
        let slot = random.below(areas[one].loops[from].len());
        let entry = areas[one].loops[from].remove(slot);
        let to = random.below(areas[two].loops.len());
        areas[two].loops[to].push(entry);
    }
}

fn damage_loops(random: &mut Random, loops: &mut Vec<Vec<i32>>, lines: i32) {
    let count = loops.len();
    let (one, two) = (random.below(count), random.below(count));
    let slot = late(random, loops[one].len());
    let other = random.below(loops[one].len());
    let entry = loops[one][slot];
    let none = lines + 1;
    match random.below(19) {
        0 => loops[one].reverse(),
        1 | 2 => turn(&mut loops[one]),
        3 => loops[one][slot] = negated(entry),
        4 => loops[one].insert(slot, entry),
        5 => loops[one][other] = entry,
        6 => loops[two].push(entry),
        7 => loops[one][other] = random_entry(random, lines),
        8 => loops[one].push(random_entry(random, lines)),
        9 => loops[one].swap(slot, other),
        10 if loops[one].len() > 1 => {
            loops[one].remove(slot);
        }
        11 if count > 1 => {
            loops.remove(one);
        }
        12 => loops.push(loops[one].clone()),
        13 => loops.swap(0, one),
        14 if count > 1 => {
            let hole = loops.remove(count - 1);
            loops[0].extend(hole);
        }
        15 => loops[one][other] = none,
        16 => loops[one][slot] = negated(none),
        17 => loops.push(vec![entry, negated(entry)]),
        _ => loops[one].rotate_left(slot),
    }
}

/// A loop walked the other way.
fn turn(one: &mut [i32]) {
    one.reverse();
    one.iter_mut().for_each(|entry| *entry = negated(*entry));
}

/// Lists: a node, a line or an area missing, twice or in another place.
fn damage_list(random: &mut Random, layer: &mut Layer) {
    match random.below(3) {
        0 => shift(random, &mut layer.nodes),
        1 => shift(random, &mut layer.lines),
        _ => shift(random, &mut layer.areas),
    }
}

fn shift<T: Clone>(random: &mut Random, list: &mut Vec<T>) {
    if list.is_empty() {
        return;
    }
    let (one, two) = (random.below(list.len()), random.below(list.len()));
    match random.below(3) {
        0 => list.swap(one, two),
        1 => list.insert(one, list[two].clone()),
        _ => {
            list.remove(one);
        }
    }
}

// Damages to records.

fn damage_records(random: &mut Random, records: &mut Records) {
    let count = records.len();
    if count == 0 {
        return;
    }
    let (one, two) = (random.below(count), random.below(count));
    match random.below(20) {
        0 => records.swap(one, two),
        1 => {
            records.remove(one);
        }
        2 => records.insert(one, records[two]),
        3 => records.insert(one, records[one]),
        4 => records[one].1[72 + random.below(2)] = *random.pick(b"\r\n \0\x8d"),
        5 => change_letters(random, records),
        6 => records.truncate(one),
        7 | 8 => wrong_total(random, records),
        9 => records[one].1[random.below(72)] = *random.pick(b"0123456789- /:\0\x81\x40ANMLH"),
        10 | 11 => spell_zero(random, records),
        12 => change_told_areas(random, records),
        13 | 14 => recount_some(random, records),
        _ => change_field(random, records),
    }
}

/// A record of a random kind, so that rare kinds are chosen as often as others.
fn any_record(random: &mut Random, records: &Records) -> usize {
    let kind = *random.pick(&crate::layout::KINDS);
    let chosen: Vec<usize> = (0..records.len()).filter(|index| records[*index].0 == kind).collect();
    if chosen.is_empty() {
        random.below(records.len())
    } else {
        *random.pick(&chosen)
    }
}

fn change_letters(random: &mut Random, records: &mut Records) {
    let headers: Vec<usize> = (0..records.len()).filter(|index| records[*index].0 == Kind::H).collect();
    if !headers.is_empty() && random.percent(40) {
        records[*random.pick(&headers)].1[1] = *random.pick(b"112230 ");
        return;
    }
    let index = any_record(random, records);
    let letters = [b"H1", b"H1", b"H2", b"H3", b"M ", b"N ", b"L ", b"A ", b"H ", b"h1", b"m ", b" M", b"HH"];
    records[index].1[..2].copy_from_slice(*random.pick(&letters));
}

/// The numbers of a kind that are 0 under an H1, for they tell of areas.
pub fn told_areas(kind: Kind) -> &'static [usize] {
    match kind {
        Kind::H => &[h::AREAS],
        Kind::L => &[l::LEFT_CODE, l::LEFT_AREA, l::RIGHT_CODE, l::RIGHT_AREA],
        _ => &[],
    }
}

/// What else can stand there.
pub const TOLD: [&[u8; CODE]; 10] =
    [b"    0", b"    1", b"    2", b"   -1", b"13101", b"88888", b"99999", &LAND, b"00000", b"     "];

/// A number that tells of areas, in layers of both sorts.
fn change_told_areas(random: &mut Random, records: &mut Records) {
    let telling: Vec<usize> = (0..records.len()).filter(|index| !told_areas(records[*index].0).is_empty()).collect();
    if telling.is_empty() {
        return;
    }
    let (kind, bytes) = &mut records[*random.pick(&telling)];
    let field = layout(*kind).numbers[*random.pick(told_areas(*kind))];
    set(bytes, &field, *random.pick(&TOLD));
}

/// The two spellings of land, and what comes near them.
pub const ZEROS: [&[u8; CODE]; 6] = [&LAND, b"    0", b"00000", b"  000", b"   00", b"0000 "];

/// A code spelled as land is, or nearly so. Every fourth time it is any number of five columns.
fn spell_zero(random: &mut Random, records: &mut Records) {
    let with_codes: Vec<usize> = (0..records.len()).filter(|index| !codes(records[*index].0).is_empty()).collect();
    let (index, field) = if with_codes.is_empty() || random.percent(25) {
        let index = any_record(random, records);
        let fields: Vec<Field> = layout(records[index].0).numbers.iter().filter(|f| f.width() == CODE).copied().collect();
        (index, *random.pick(&fields))
    } else {
        let index = *random.pick(&with_codes);
        let kind = records[index].0;
        (index, layout(kind).numbers[*random.pick(codes(kind))])
    };
    let text = if random.percent(40) { &LAND } else { *random.pick(&ZEROS) };
    set(&mut records[index].1, &field, text);
}

/// A total, serial or count that is one off.
fn wrong_total(random: &mut Random, records: &mut Records) {
    let totals: Vec<usize> = (0..records.len())
        .filter(|index| matches!(records[*index].0, Kind::M | Kind::H | Kind::A | Kind::Loop))
        .collect();
    if totals.is_empty() {
        return;
    }
    let index = *random.pick(&totals);
    let (kind, bytes) = &mut records[index];
    let field = *random.pick(&layout(*kind).numbers);
    let off = *random.pick(&[1, -1]);
    if let Some(text) = number(field.of(bytes)).and_then(|now| spelled(now + off, field.width())) {
        set(bytes, &field, &text[..field.width()]);
    }
}

/// A way to count records: how many more than the rule an M tells, how many more again for each of its layers, and how many
/// more an H tells.
pub type Recount = (i32, i32, i32);

/// The old way: each M and each H counts itself as well.
pub const OLD: Recount = (1, 0, 1);

/// Ways to count records that are not the rule: an M or an H counts itself or one fewer, and an M counts no H record or
/// each of them twice.
pub const RECOUNTS: [Recount; 14] = [
    OLD, (1, 0, 0), (0, 0, 1), (-1, 0, 0), (0, 0, -1), (-1, 0, -1), (1, 0, -1), (-1, 0, 1), (0, -1, 0), (0, -1, 1), (1, -1, 0),
    (1, -1, 1), (0, 1, 0), (0, 1, 1),
];

/// The records totals of a file told by another way to count: those whose M or H stands at a place that is chosen.
pub fn recount(records: &mut Records, (mesh, of_each, layer): Recount, chosen: impl Fn(usize) -> bool) {
    for index in (0..records.len()).filter(|index| chosen(*index)) {
        let kind = records[index].0;
        let more = if kind == Kind::M { mesh + of_each * layers_of(records, index) } else { layer };
        tell_more(records, index, more);
    }
}

/// How many H records a mesh has, by the place of its M.
fn layers_of(records: &Records, index: usize) -> i32 {
    let of_mesh = records[index + 1..].iter().take_while(|(kind, _)| *kind != Kind::M);
    of_mesh.filter(|(kind, _)| *kind == Kind::H).count() as i32
}

/// The records total at a place tells so many more, if there is one and the number fits.
pub fn tell_more(records: &mut Records, index: usize, more: i32) {
    let (kind, bytes) = &mut records[index];
    let Some(field) = records_total(*kind) else { return };
    if let Some(text) = number(field.of(bytes)).and_then(|now| spelled(now + more, field.width())) {
        set(bytes, &field, &text[..field.width()]);
    }
}

/// Records counted in another way: in the whole file, in some of its meshes and layers, or in one of them.
fn recount_some(random: &mut Random, records: &mut Records) {
    let bearing: Vec<usize> = (0..records.len()).filter(|index| records_total(records[*index].0).is_some()).collect();
    if bearing.is_empty() {
        return;
    }
    let way = if random.percent(30) { OLD } else { *random.pick(&RECOUNTS) };
    let times = *random.pick(&[0, 50, 100]);
    let mut chosen: Vec<usize> = bearing.iter().copied().filter(|_| random.percent(times)).collect();
    if chosen.is_empty() {
        chosen.push(*random.pick(&bearing));
    }
    recount(records, way, |index| chosen.contains(&index));
}

/// A field of any kind set to an interesting value.
fn change_field(random: &mut Random, records: &mut Records) {
    let index = any_record(random, records);
    let kind = records[index].0;
    let field = if random.percent(90) {
        *random.pick(&layout(kind).numbers)
    } else {
        *random.pick(&layout(kind).fields)
    };
    let neighbours: Vec<usize> = (0..records.len()).filter(|other| records[*other].0 == kind).collect();
    let neighbour = records[*random.pick(&neighbours)].1;
    let bytes = &mut records[index].1;
    let text = if random.percent(25) {
        field.of(&neighbour).to_vec()
    } else {
        random.pick(&interesting(&field, field.of(bytes))).clone()
    };
    set(bytes, &field, &text);
}

pub fn set(record: &mut [u8], field: &Field, text: &[u8]) {
    record[field.start - 1..field.end].copy_from_slice(text);
}

/// Interesting texts for a field.
pub fn interesting(field: &Field, now: &[u8]) -> Vec<Vec<u8>> {
    match field.sort {
        Sort::Number | Sort::Code => interesting_numbers(field.width(), number(now).unwrap_or(0)),
        Sort::Name => interesting_pairs(now),
        Sort::Blank => spoilt(now, b"0\0\tx\xA0-"),
    }
}

fn interesting_numbers(width: usize, now: i32) -> Vec<Vec<u8>> {
    let numbers = [
        0, 1, -1, 2, 3, 4, 5, 6, 7, 8, 9, 10, 12, 13, 99, 100, 112, 113, 1200, 1301, 9912, 9900, 999, 1000, 9999, 10000,
        10001, 88887, 88888, 88889, 99999, 100000, 533945, 533985, 533958, 999977, 999999, -2, -9, -99, -999, -9999,
        -99999, now, now + 1, now - 1, -now,
    ];
    let spelled = numbers.iter().filter_map(|number| spelled(*number, width));
    let mut texts: Vec<Vec<u8>> = spelled.map(|text| text[..width].to_vec()).collect();
    let odd: [&[u8]; 22] = [
        b"", b"-0", b"-", b"x", b"+1", b"1 ", b"- 1", b"--1", b"1-", b"1 1", b"00001", b"000000", b"01", b"-01", b"/",
        b":", b"\x001", b"0000", b"000", b"00", b"0000 ", b"-0000",
    ];
    texts.extend(odd.iter().filter(|text| text.len() <= width).map(|text| aligned(text, width)));
    texts.extend([b'0', b'9', b'x', b'-', 0xB1].map(|byte| vec![byte; width]));
    let zeros_in_front = [1, -1, now, -now].map(|number| format!("{number:0width$}").into_bytes());
    texts.extend(zeros_in_front.into_iter().filter(|text| text.len() == width));
    texts
}

/// A text with spaces in front.
fn aligned(text: &[u8], width: usize) -> Vec<u8> {
    let mut field = vec![b' '; width];
    field[width - text.len()..].copy_from_slice(text);
    field
}

/// Names whose first, last or middle pair is at a bound.
fn interesting_pairs(now: &[u8]) -> Vec<Vec<u8>> {
    let pairs: [[u8; 2]; 16] = [
        [0x81, 0x40], [0x9F, 0xFC], [0xE0, 0x7E], [0xFC, 0x80], [0x80, 0x40], [0xA0, 0x40], [0xDF, 0x40], [0xFD, 0x40],
        [0xFF, 0x40], [0x81, 0x3F], [0x81, 0x7F], [0x81, 0xFD], [0x81, 0xFF], [0x20, 0x20], [0x41, 0x81], [0x00, 0x00],
    ];
    let places = [0, now.len() / 4 * 2, now.len() - 2];
    let mut texts = Vec::new();
    for place in places {
        for pair in pairs {
            let mut text = now.to_vec();
            text[place..place + 2].copy_from_slice(&pair);
            texts.push(text);
        }
    }
    texts
}

/// The first, middle and last byte replaced.
fn spoilt(now: &[u8], others: &[u8]) -> Vec<Vec<u8>> {
    let mut texts = Vec::new();
    for place in [0, now.len() / 2, now.len() - 1] {
        for other in others {
            let mut text = now.to_vec();
            text[place] = *other;
            texts.push(text);
        }
    }
    texts
}

// Rows of records that lead the walk astray.

/// Up to 50 records. Most are of the kind that is due at their place. Every second number that steers the walk is odd.
pub fn astray(random: &mut Random, records: &Records) -> Vec<u8> {
    let mut bytes = Vec::new();
    for _ in 0..random.below(51) {
        let due = *dues(&bytes).last().expect("something is due behind the last record");
        let of_kind: Vec<usize> = (0..records.len()).filter(|index| records[*index].0 == due).collect();
        let any = random.below(records.len());
        let chosen = if of_kind.is_empty() || random.percent(10) { any } else { *random.pick(&of_kind) };
        let mut record = records[chosen].1;
        for index in steering(due) {
            if random.percent(50) {
                odd_number(random, &mut record, &layout(due).numbers[*index]);
            }
        }
        bytes.extend(record);
    }
    if random.percent(20) {
        damage_bytes(random, &mut bytes);
    }
    bytes
}

/// The numbers of a kind that say what is due next.
pub fn steering(kind: Kind) -> &'static [usize] {
    match kind {
        Kind::M => &[m::LAYERS],
        Kind::H => &[h::NODES, h::LINES, h::AREAS],
        Kind::L => &[l::POINTS],
        Kind::A => &[a::LOOPS],
        Kind::Loop => &[lp::COUNT],
        Kind::N | Kind::Coordinates => &[],
    }
}

/// A file in which one number that steers the walk is a count, then as many records as it counts, and sheet S behind them.
/// The number is given by its kind and by its index among those of the kind.
pub fn counted(kind: Kind, index: usize, count: i32) -> Vec<u8> {
    let s = sheet_s().records();
    let record = |kind: Kind, numbers: [i32; 3]| {
        let mut bytes = s[kind as usize - 1].1;
        for (index, number) in steering(kind).iter().zip(numbers) {
            let field = layout(kind).numbers[*index];
            let text = spelled(number, field.width()).expect("the count fits its field");
            set(&mut bytes, &field, &text[..field.width()]);
        }
        (kind, bytes)
    };
    let numbers = |count| std::array::from_fn(|other| if other == index { count } else { 0 });
    let (over, counted): (&[(Kind, [i32; 3])], Kind) = match (kind, index) {
        (Kind::M, _) => (&[], Kind::H),
        (Kind::H, 0) => (&[(Kind::M, [1, 0, 0])], Kind::N),
        (Kind::H, 1) => (&[(Kind::M, [1, 0, 0])], Kind::L),
        (Kind::H, _) => (&[(Kind::M, [1, 0, 0])], Kind::A),
        (Kind::L, _) => (&[(Kind::M, [1, 0, 0]), (Kind::H, [0, 1, 0])], Kind::Coordinates),
        (Kind::A, _) => (&[(Kind::M, [1, 0, 0]), (Kind::H, [0, 0, 1])], Kind::Loop),
        _ => (&[(Kind::M, [1, 0, 0]), (Kind::H, [0, 0, 1]), (Kind::A, [1, 0, 0])], Kind::Loop),
    };
    let times = match kind {
        Kind::L => (count as usize).div_ceil(7),
        Kind::Loop => (count as usize).div_ceil(12) - 1,
        _ => count as usize,
    };
    let mut records: Records = over.iter().map(|(kind, numbers)| record(*kind, *numbers)).collect();
    records.push(record(kind, numbers(count)));
    records.extend(vec![record(counted, [0; 3]); times]);
    records.extend(&s);
    joined(&records)
}

/// A number small, below 0 or ill formed.
fn odd_number(random: &mut Random, record: &mut [u8], field: &Field) {
    let texts: [&[u8]; 24] = [
        b"0", b"1", b"2", b"3", b"7", b"8", b"12", b"13", b"14", b"15", b"24", b"25", b"-1", b"-2", b"-7", b"-8", b"-13",
        b"", b"-0", b"02", b"2 ", b"+2", b"-", b"2x",
    ];
    let text: &[u8] = random.pick::<&[u8]>(&texts);
    set(record, field, &aligned(text, field.width()));
}

// Damages to bytes.

fn damage_bytes(random: &mut Random, bytes: &mut Vec<u8>) {
    let length = bytes.len();
    let at = random.below(length + 1);
    match random.below(8) {
        0 => bytes.truncate(at),
        1 => bytes.truncate(at / RECORD * RECORD),
        2 => bytes.extend(vec![b' '; 1 + random.below(80)]),
        3 => bytes.extend_from_within(..length.min(RECORD)),
        4 => bytes.insert(at, *random.pick(b" 0\r\n")),
        5 if at < length => {
            bytes.remove(at);
        }
        6 if at < length => bytes[at] = random.below(256) as u8,
        _ => {
            if let Some(end) = (at / RECORD).checked_mul(RECORD).filter(|end| *end >= RECORD) {
                bytes[end - 1 - random.below(2)] = *random.pick(b"\r\n ");
            }
        }
    }
}

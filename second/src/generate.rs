//! Generates accepted files with real topology.
//!
//! A layer is drawn as a plane map. A grid of cells covers the sheet. Some borders between cells are left out, so cells
//! grow together. Smaller grids lie inside cells as islands and lakes. Petals (closed lines) and spurs (lines with one
//! area on both sides) hang on grid corners. Lines are chains of borders, areas are what the lines enclose, loops are
//! found by walking along the lines with the area on the right.
//!
//! An unstructured layer is such a map without its areas, and trees of borders stay in it; or its lines run anywhere.

use crate::judge::verdict;
use crate::layout::{STRUCTURED, UNSTRUCTURED};
use crate::random::Random;
use crate::sheet::{on_frame, sheet_s, two_byte_spaces, Area, End, Layer, Line, Mesh, Node, Sheet, Side};
use crate::sheet::{NOTHING, OUTSIDE};
use std::collections::BTreeMap;

type Point = (i32, i32);

/// How a layer is drawn.
#[derive(Clone, Debug)]
pub struct Shape {
    pub columns: usize,
    pub rows: usize,
    /// How many times in a hundred an inner border is kept.
    pub keep: usize,
    /// How many times in a hundred a border of the frame is kept.
    pub keep_frame: usize,
    /// How many times in a hundred a cell has smaller grids inside, and how deep.
    pub islands: usize,
    pub depth: usize,
    /// How many times in a hundred a corner has a petal or a spur.
    pub petals: usize,
    /// How many times in a hundred a point between two borders is a node.
    pub cut: usize,
    /// The most points inside a border.
    pub points: i32,
    /// Lines, areas and nodes are numbered at random; else in the order in which they are drawn.
    pub shuffled: bool,
}

impl Shape {
    /// A random shape. Size is about the number of cells.
    pub fn random(random: &mut Random, size: usize) -> Shape {
        let side = |random: &mut Random| 1 + random.below(2 * (size as f64).sqrt() as usize + 1);
        Shape {
            columns: side(random),
            rows: side(random),
            keep: *random.pick(&[0, 30, 60, 80, 100]),
            keep_frame: *random.pick(&[100, 100, 100, 70, 0]),
            islands: *random.pick(&[0, 10, 30]),
            depth: 1 + random.below(2),
            petals: *random.pick(&[0, 0, 5, 20, 90]),
            cut: *random.pick(&[0, 30, 100]),
            points: *random.pick(&[0, 0, 2, 5, 8, 40]),
            shuffled: true,
        }
    }
}

// The plane map.

/// A border between two corners. Cell 0 is the outside.
struct Border {
    ends: [usize; 2],
    /// The direction at each end, as a number that rises counterclockwise from the east.
    turns: [u32; 2],
    points: Vec<Point>,
    left: usize,
    right: usize,
    on_frame: bool,
    kept: bool,
}

#[derive(Default)]
struct Map {
    corners: Vec<Point>,
    borders: Vec<Border>,
    /// Cells grown together: each cell tells another one of its face, or itself.
    cells: Vec<usize>,
    /// A point of each cell.
    middles: Vec<Point>,
}

impl Map {
    fn corner(&mut self, place: Point) -> usize {
        self.corners.push(place);
        self.corners.len() - 1
    }

    fn cell(&mut self, middle: Point) -> usize {
        self.cells.push(self.cells.len());
        self.middles.push(middle);
        self.cells.len() - 1
    }

    /// The face of a cell: the least cell that it has grown together with.
    fn face(&self, mut cell: usize) -> usize {
        while self.cells[cell] != cell {
            cell = self.cells[cell];
        }
        cell
    }

    fn grow_together(&mut self, one: usize, two: usize) {
        let (one, two) = (self.face(one), self.face(two));
        self.cells[one.max(two)] = one.min(two);
    }
}

/// A grid of cells between these columns and rows, inside a cell (0: the sheet itself).
fn draw_grid(map: &mut Map, random: &mut Random, shape: &Shape, xs: &[i32], ys: &[i32], around: usize) {
    let first_corner = map.corners.len();
    let first_cell = map.cells.len();
    let (columns, rows) = (xs.len() - 1, ys.len() - 1);
    for y in ys {
        for x in xs {
            map.corner((*x, *y));
        }
    }
    for y in ys.windows(2) {
        for x in xs.windows(2) {
            map.cell(((x[0] + x[1]) / 2, (y[0] + y[1]) / 2));
        }
    }
    let corner = |i: usize, j: usize| first_corner + j * (columns + 1) + i;
    let cell = |i: usize, j: usize| first_cell + j * columns + i;
    for j in 0..=rows {
        for i in 0..columns {
            let left = if j < rows { cell(i, j) } else { around };
            let right = if j > 0 { cell(i, j - 1) } else { around };
            draw_border(map, random, shape, [corner(i, j), corner(i + 1, j)], 0, left, right);
        }
    }
    for j in 0..rows {
        for i in 0..=columns {
            let left = if i > 0 { cell(i - 1, j) } else { around };
            let right = if i < columns { cell(i, j) } else { around };
            draw_border(map, random, shape, [corner(i, j), corner(i, j + 1)], 1, left, right);
        }
    }
    let room = narrowest(xs).min(narrowest(ys)) / 12;
    for j in 0..rows {
        for i in 0..columns {
            let corners = [corner(i, j), corner(i + 1, j), corner(i + 1, j + 1), corner(i, j + 1)];
            for (quarter, corner) in corners.into_iter().enumerate() {
                if room > 0 && random.percent(shape.petals) && random.percent(50) {
                    draw_petal_or_spur(map, random, corner, quarter, room, cell(i, j));
                }
            }
            if shape.depth > 0 && random.percent(shape.islands) {
                draw_islands(map, random, shape, &xs[i..i + 2], &ys[j..j + 2], cell(i, j));
            }
        }
    }
}

fn narrowest(places: &[i32]) -> i32 {
    places.windows(2).map(|pair| pair[1] - pair[0]).min().unwrap_or(0)
}

/// The width of a cell across a border, if the cell belongs to the grid.
fn across(map: &Map, cell: usize, around: Point, upright: bool) -> i32 {
    let (x, y) = map.middles[cell];
    2 * if upright { (x - around.0).abs() } else { (y - around.1).abs() }
}

/// A border from west to east (direction 0) or from south to north (direction 1).
fn draw_border(
    map: &mut Map,
    random: &mut Random,
    shape: &Shape,
    ends: [usize; 2],
    direction: u32,
    left: usize,
    right: usize,
) {
    let (from, to) = (map.corners[ends[0]], map.corners[ends[1]]);
    let upright = direction == 1;
    let frame = if upright { from.0 } else { from.1 };
    let is_frame = (left == 0 || right == 0) && [0, 10_000].contains(&frame);
    let length = (to.0 - from.0) + (to.1 - from.1);
    let widths = [left, right].map(|cell| if cell == 0 { 0 } else { across(map, cell, from, upright) });
    let sway = if is_frame { 0 } else { (widths[0].min(widths[1]) / 4 - 1).max(0) };
    let steps = sway_steps(random, shape.points, length, sway);
    let at = |(along, aside): (i32, i32)| {
        if upright {
            (from.0 + aside, from.1 + along)
        } else {
            (from.0 + along, from.1 + aside)
        }
    };
    let mut points = vec![from];
    points.extend(steps.into_iter().map(at));
    points.push(to);
    let kept = random.percent(if is_frame { shape.keep_frame } else { shape.keep });
    let turns = [100 * direction, 100 * (direction + 2)];
    map.borders.push(Border { ends, turns, points, left, right, on_frame: is_frame, kept });
}

/// Points inside a border: how far along and how far aside. They stay near the straight line, so that no two borders
/// cross: aside is at most half the way to the nearer end.
fn sway_steps(random: &mut Random, most: i32, length: i32, sway: i32) -> Vec<(i32, i32)> {
    let count = random.within(0, most.min(length - 1).max(0));
    let mut places: Vec<i32> = (0..count).map(|_| random.within(1, length - 1)).collect();
    places.sort_unstable();
    places.dedup();
    let mut aside = 0;
    let mut steps = Vec::new();
    for along in places {
        let bound = ((along.min(length - along) - 1) / 2).min(sway);
        aside = (aside + random.within(-5, 5) * (1 + bound / 20)).clamp(-bound, bound);
        steps.push((along, aside));
    }
    steps
}

/// Something in the quarter between two borders at a corner: quarter 0 lies north-east of it.
fn draw_petal_or_spur(map: &mut Map, random: &mut Random, corner: usize, quarter: usize, room: i32, cell: usize) {
    let (x, y) = map.corners[corner];
    let k = random.within(1, room);
    let turned = |(a, b): Point| match quarter {
        0 => (x + a, y + b),
        1 => (x - b, y + a),
        2 => (x - a, y - b),
        _ => (x + b, y - a),
    };
    let turn = 100 * quarter as u32;
    if random.percent(70) {
        let points: Vec<Point> = [(0, 0), (3 * k, 2 * k), (3 * k, 3 * k), (2 * k, 3 * k), (0, 0)].map(turned).into();
        let inside = map.cell(turned((2 * k, 2 * k)));
        map.borders.push(Border {
            ends: [corner, corner],
            turns: [turn + 10, turn + 20],
            points,
            left: inside,
            right: cell,
            on_frame: false,
            kept: true,
        });
    } else {
        let tip = map.corner(turned((k, k)));
        map.borders.push(Border {
            ends: [corner, tip],
            turns: [turn + 10, 0],
            points: vec![(x, y), turned((k, k))],
            left: cell,
            right: cell,
            on_frame: false,
            kept: true,
        });
    }
}

/// One island in the middle of a cell, or up to four.
fn draw_islands(map: &mut Map, random: &mut Random, shape: &Shape, xs: &[i32], ys: &[i32], cell: usize) {
    let inner = Shape {
        depth: shape.depth - 1,
        keep_frame: 100,
        keep: if random.percent(70) { 100 } else { shape.keep },
        ..shape.clone()
    };
    let split = 1 + random.below(2) as i32;
    let part = |places: &[i32], k: i32| {
        let size = (places[1] - places[0]) / 2 / split;
        let first = places[0] + (places[1] - places[0]) / 4 + size * k + size / 4;
        (first, first + size / 2)
    };
    for j in 0..split {
        for i in 0..split {
            let (west, east) = part(xs, i);
            let (south, north) = part(ys, j);
            if (east - west).min(north - south) >= 24 && random.percent(80) {
                let inner_xs = cuts(random, west, east, 4);
                let inner_ys = cuts(random, south, north, 4);
                draw_grid(map, random, &inner, &inner_xs, &inner_ys, cell);
            }
        }
    }
}

/// Random cuts of a way, no part narrower than 12.
fn cuts(random: &mut Random, first: i32, last: i32, most: usize) -> Vec<i32> {
    let parts = (1 + random.below(most) as i32).min(((last - first) / 24).max(1));
    let part = (last - first) / parts;
    let mut places = vec![first];
    for k in 1..parts {
        places.push(first + k * part + random.within(-part / 4, part / 4));
    }
    places.push(last);
    places
}

/// Cuts of the whole sheet.
fn sheet_cuts(random: &mut Random, parts: usize) -> Vec<i32> {
    let part = 10_000 / parts as i32;
    let mut places: Vec<i32> = (0..=parts as i32).map(|k| k * part).collect();
    for place in &mut places[1..parts] {
        *place += random.within(-part / 4, part / 4);
    }
    places[parts] = 10_000;
    places
}

fn draw_map(random: &mut Random, shape: &Shape) -> Map {
    let mut map = Map::default();
    map.cell((0, 0));
    let xs = sheet_cuts(random, shape.columns);
    let ys = sheet_cuts(random, shape.rows);
    draw_grid(&mut map, random, shape, &xs, &ys, 0);
    thin_nodes(&mut map);
    grow_cells(&mut map);
    map
}

/// No node has more than nine entries: petals and spurs beyond them go.
fn thin_nodes(map: &mut Map) {
    let mut degree = vec![0; map.corners.len()];
    for border in &mut map.borders {
        if border.kept && border.ends.iter().map(|end| degree[*end]).max() > Some(7) {
            border.kept = false;
        }
        if border.kept {
            border.ends.iter().for_each(|end| degree[*end] += 1);
        }
    }
}

/// Cells on both sides of a border that is left out grow together.
fn grow_cells(map: &mut Map) {
    for index in 0..map.borders.len() {
        if !map.borders[index].kept {
            let (left, right) = (map.borders[index].left, map.borders[index].right);
            map.grow_together(left, right);
        }
    }
}

/// A tree of borders that hangs on no ring would be a loop of measure 0 in its area. It goes. Outside it may stay.
fn drop_loose_trees(map: &mut Map) {
    let mut group: Vec<usize> = (0..map.corners.len()).collect();
    fn top(group: &[usize], mut corner: usize) -> usize {
        while group[corner] != corner {
            corner = group[corner];
        }
        corner
    }
    let mut ringed = vec![false; map.corners.len()];
    for border in map.borders.iter().filter(|border| border.kept) {
        let [one, two] = border.ends.map(|end| top(&group, end));
        let ring = one == two || ringed[one] || ringed[two];
        group[one] = two;
        ringed[two] = ring;
    }
    for index in 0..map.borders.len() {
        let loose = !ringed[top(&group, map.borders[index].ends[0])];
        if loose && map.face(map.borders[index].left) != 0 {
            map.borders[index].kept = false;
        }
    }
}

// From the map to a layer.

/// A line as a chain of borders.
struct Chain {
    ends: [usize; 2],
    turns: [u32; 2],
    points: Vec<Point>,
    /// Faces.
    left: usize,
    right: usize,
    on_frame: bool,
}

/// An end of a border or a chain: its index, and 0 for its start or 1 for its end.
type Half = (usize, usize);

fn chains(map: &Map, random: &mut Random, cut: usize) -> Vec<Chain> {
    let halves = halves_at(map);
    let mut is_node: Vec<bool> = halves.iter().map(|here| here.len() != 2 || random.percent(cut)).collect();
    let mut done = vec![false; map.borders.len()];
    let mut chains = Vec::new();
    let mut follow = |from: usize, is_node: &[bool]| {
        for half in &halves[from] {
            if !done[half.0] {
                chains.push(chain(map, &halves, is_node, &mut done, *half));
            }
        }
    };
    for corner in 0..map.corners.len() {
        if is_node[corner] {
            follow(corner, &is_node);
        }
    }
    // Rings without a node: any corner of them becomes one.
    for corner in 0..map.corners.len() {
        if !is_node[corner] && random.percent(10) {
            is_node[corner] = true;
            follow(corner, &is_node);
        }
    }
    for corner in 0..map.corners.len() {
        follow(corner, &is_node);
    }
    chains
}

/// The ends of kept borders at each corner.
fn halves_at(map: &Map) -> Vec<Vec<Half>> {
    let mut halves = vec![Vec::new(); map.corners.len()];
    for (index, border) in map.borders.iter().enumerate().filter(|(_, border)| border.kept) {
        halves[border.ends[0]].push((index, 0));
        halves[border.ends[1]].push((index, 1));
    }
    halves
}

/// The chain that leaves a corner along a border and goes on to the next node, or back to its start.
fn chain(map: &Map, halves: &[Vec<Half>], is_node: &[bool], done: &mut [bool], first: Half) -> Chain {
    let (index, end) = first;
    let border = &map.borders[index];
    let (left, right) = if end == 0 { (border.left, border.right) } else { (border.right, border.left) };
    let start = border.ends[end];
    let mut chain = Chain {
        ends: [start, start],
        turns: [border.turns[end]; 2],
        points: vec![map.corners[start]],
        left: map.face(left),
        right: map.face(right),
        on_frame: true,
    };
    let (mut index, mut end) = first;
    loop {
        done[index] = true;
        let border = &map.borders[index];
        let mut points = border.points.clone();
        if end == 1 {
            points.reverse();
        }
        chain.points.extend(&points[1..]);
        chain.on_frame &= border.on_frame;
        let here = border.ends[1 - end];
        chain.ends[1] = here;
        chain.turns[1] = border.turns[1 - end];
        if is_node[here] || here == start {
            return chain;
        }
        let next = halves[here].iter().find(|half| **half != (index, 1 - end)).expect("two ends meet here");
        (index, end) = *next;
    }
}

/// The loops of each face: the chains walked with the face on the right. An entry is a half: where it starts.
fn loops_of(chains: &[Chain]) -> BTreeMap<usize, Vec<Vec<Half>>> {
    let around = halves_around(chains);
    let mut walked = vec![[false; 2]; chains.len()];
    let mut loops: BTreeMap<usize, Vec<Vec<Half>>> = BTreeMap::new();
    for index in 0..chains.len() {
        for end in 0..2 {
            let face = face_right_of(chains, (index, end));
            if face == 0 || walked[index][end] {
                continue;
            }
            let mut entries = Vec::new();
            let mut half = (index, end);
            while !walked[half.0][half.1] {
                assert_eq!(face_right_of(chains, half), face, "a loop keeps its area on the right");
                walked[half.0][half.1] = true;
                entries.push(half);
                half = next_half(chains, &around, half);
            }
            loops.entry(face).or_default().push(entries);
        }
    }
    loops
}

/// The ends of chains at each corner, counterclockwise.
fn halves_around(chains: &[Chain]) -> BTreeMap<usize, Vec<Half>> {
    let mut around: BTreeMap<usize, Vec<Half>> = BTreeMap::new();
    for (index, chain) in chains.iter().enumerate() {
        for end in 0..2 {
            around.entry(chain.ends[end]).or_default().push((index, end));
        }
    }
    for halves in around.values_mut() {
        halves.sort_by_key(|(index, end)| chains[*index].turns[*end]);
    }
    around
}

fn face_right_of(chains: &[Chain], (index, end): Half) -> usize {
    if end == 0 {
        chains[index].right
    } else {
        chains[index].left
    }
}

/// At the end of a chain the walk turns right: to the next chain counterclockwise from the one it came by.
fn next_half(chains: &[Chain], around: &BTreeMap<usize, Vec<Half>>, (index, end): Half) -> Half {
    let halves = &around[&chains[index].ends[1 - end]];
    let came_by = halves.iter().position(|half| *half == (index, 1 - end)).expect("the chain ends here");
    halves[(came_by + 1) % halves.len()]
}

/// Doubled area of a loop; clockwise is above 0.
fn measure(chains: &[Chain], entries: &[Half]) -> i64 {
    let one = |(index, end): &Half| {
        let pairs = chains[*index].points.windows(2);
        let sum: i64 = pairs.map(|p| i64::from(p[1].0 * p[0].1) - i64::from(p[0].0 * p[1].1)).sum();
        if *end == 0 {
            sum
        } else {
            -sum
        }
    };
    entries.iter().map(one).sum()
}

/// A random layer of this shape with these letters, or None if it would not fit the totals.
pub fn layer(random: &mut Random, code: i32, letters: u32, shape: &Shape) -> Option<Layer> {
    let mut map = draw_map(random, shape);
    if letters == STRUCTURED {
        drop_loose_trees(&mut map);
    }
    let chains = chains(&map, random, shape.cut);
    layer_of(random, code, letters, &map, chains, shape.shuffled)
}

/// A random unstructured layer whose lines run anywhere: they may cross, lie on one another, turn back or stand still.
/// Size is about the number of lines.
pub fn scribble(random: &mut Random, code: i32, size: usize) -> Option<Layer> {
    let mut map = Map::default();
    for _ in 0..1 + random.below(2 * size) {
        let place = anywhere(random);
        map.corner(place);
    }
    // Each corner starts a line, so it has an entry. It has nine at most.
    let mut degree = vec![0; map.corners.len()];
    let mut chains = Vec::new();
    for start in 0..map.corners.len() {
        let end = random.below(map.corners.len());
        let end = if degree[end] < 7 { end } else { start };
        let mut points = vec![map.corners[start]];
        points.extend((0..*random.pick(&[0, 0, 1, 5, 6, 20])).map(|_| anywhere(random)));
        points.push(map.corners[end]);
        degree[start] += 1;
        degree[end] += 1;
        let on_frame = random.percent(20);
        chains.push(Chain { ends: [start, end], turns: [0; 2], points, left: 0, right: 0, on_frame });
    }
    layer_of(random, code, UNSTRUCTURED, &map, chains, true)
}

/// A point anywhere, often on the frame or on the middle lines.
fn anywhere(random: &mut Random) -> Point {
    let mut coordinate = || if random.percent(30) { *random.pick(&[0, 5000, 10_000]) } else { random.within(0, 10_000) };
    (coordinate(), coordinate())
}

/// The layer of these chains. It has areas if it is structured.
fn layer_of(
    random: &mut Random,
    code: i32,
    letters: u32,
    map: &Map,
    mut chains: Vec<Chain>,
    shuffled: bool,
) -> Option<Layer> {
    for chain in &mut chains {
        if random.percent(50) {
            reverse(chain);
        }
    }
    if shuffled {
        random.shuffle(&mut chains);
    }
    let (loops, outside) = match letters {
        STRUCTURED => (loops_of(&chains), OUTSIDE),
        _ => (BTreeMap::new(), NOTHING),
    };
    let mut faces: Vec<usize> = loops.keys().copied().collect();
    if shuffled {
        random.shuffle(&mut faces);
    }
    let mut areas = Vec::new();
    let mut sides = BTreeMap::new();
    for (index, face) in faces.iter().enumerate() {
        let area = area(random, code, map.middles[*face], &chains, &loops[face]);
        sides.insert(*face, Side { code: area.code, zeros: false, area: index as i32 + 1 });
        areas.push(area);
    }
    let around = halves_around(&chains);
    let mut corners: Vec<usize> = around.keys().copied().collect();
    if shuffled {
        random.shuffle(&mut corners);
    }
    let mut serials = BTreeMap::new();
    let mut nodes = Vec::new();
    for (index, corner) in corners.iter().enumerate() {
        serials.insert(*corner, index as i32 + 1);
        nodes.push(node(random, code, map.corners[*corner], &around[corner]));
    }
    let side = |face: usize| sides.get(&face).copied().unwrap_or(outside);
    let lines: Vec<Line> =
        chains.into_iter().map(|chain| line(random, code, chain, map, &serials, side)).collect();
    let entries = |area: &Area| area.loops.iter().map(Vec::len).sum::<usize>();
    let fits = lines.len() <= 9999 && areas.iter().all(|area| entries(area) <= 9999);
    let (first_made, last_changed) = (date(random), date(random));
    fits.then_some(Layer { code, letters, first_made, last_changed, nodes, lines, areas })
}

fn reverse(chain: &mut Chain) {
    chain.ends.reverse();
    chain.turns.reverse();
    chain.points.reverse();
    std::mem::swap(&mut chain.left, &mut chain.right);
}

/// The entry of a half: +n from the start, -n from the end.
fn entry((index, end): &Half) -> i32 {
    let number = *index as i32 + 1;
    if *end == 0 {
        number
    } else {
        -number
    }
}

fn area(random: &mut Random, layer: i32, middle: Point, chains: &[Chain], loops: &[Vec<Half>]) -> Area {
    let (outer, holes): (Vec<_>, Vec<_>) = loops.iter().partition(|one| measure(chains, one) > 0);
    assert_eq!(outer.len(), 1, "an area has one outer loop");
    let mut ordered: Vec<&Vec<Half>> = outer;
    ordered.extend(holes);
    let as_entries = |one: &Vec<Half>| {
        let mut entries: Vec<i32> = one.iter().map(entry).collect();
        let turn = random.below(entries.len());
        entries.rotate_left(turn);
        entries
    };
    let loops = ordered.into_iter().map(as_entries).collect();
    Area { code: code(random, layer), zeros: false, place: middle, loops, name: name(random) }
}

fn code(random: &mut Random, layer: i32) -> i32 {
    let usual = [13101, 13102, 99999, 1, if layer == 5 { 0 } else { 27801 }];
    match random.below(3) {
        0 => random.within(1, 88887),
        1 if layer == 5 => 0,
        _ => *random.pick(&usual),
    }
}

fn name<const LENGTH: usize>(random: &mut Random) -> [u8; LENGTH] {
    let mut name = two_byte_spaces();
    if random.percent(50) {
        for pair in name.chunks_mut(2) {
            pair[0] = *random.pick(&[0x81, 0x9F, 0xE0, 0xFC, 0x88]);
            pair[1] = *random.pick(&[0x40, 0x7E, 0x80, 0xFC, 0x9F]);
        }
    }
    name
}

fn date(random: &mut Random) -> i32 {
    if random.percent(30) {
        0
    } else {
        random.within(0, 99) * 100 + random.within(1, 12)
    }
}

fn node(random: &mut Random, layer: i32, place: Point, halves: &[Half]) -> Node {
    let mut entries: Vec<i32> = halves.iter().map(entry).collect();
    random.shuffle(&mut entries);
    let item = if layer == 1 { random.within(1, 4) } else { *random.pick(&[1, 6, 8]) };
    Node { item, place, entries }
}

fn line(
    random: &mut Random,
    layer: i32,
    chain: Chain,
    map: &Map,
    serials: &BTreeMap<usize, i32>,
    side: impl Fn(usize) -> Side,
) -> Line {
    let item = match (chain.on_frame, layer) {
        (true, _) => 9,
        (_, 1) => random.within(1, 5),
        _ => 2,
    };
    let kind = if item == 9 { 9 } else { random.within(i32::from(layer == 5), 2) };
    let ends = chain.ends.map(|corner| End {
        node: serials[&corner],
        link: if on_frame(map.corners[corner]) { random.within(1, 2) } else { 0 },
    });
    Line { item, kind, ends, left: side(chain.left), right: side(chain.right), points: chain.points }
}

// From layers to sheets.

/// Land is spelled with four zeros in no place, in every place, or in some places and not in others.
fn spell_land(random: &mut Random, mut layer: Layer) -> Layer {
    let times = *random.pick(&[0, 50, 50, 100]);
    let sides = layer.lines.iter_mut().flat_map(|line| [&mut line.left.zeros, &mut line.right.zeros]);
    for zeros in sides.chain(layer.areas.iter_mut().map(|area| &mut area.zeros)) {
        *zeros = random.percent(times);
    }
    layer
}

/// A layer without nodes, lines and areas.
fn empty_layer(random: &mut Random, code: i32, letters: u32) -> Layer {
    let (first_made, last_changed) = (date(random), date(random));
    Layer { code, letters, first_made, last_changed, nodes: vec![], lines: vec![], areas: vec![] }
}

/// A layer that is unstructured so many times in a hundred.
fn any_layer(random: &mut Random, code: i32, unstructured: usize, size: usize) -> Layer {
    let letters = if random.percent(unstructured) { UNSTRUCTURED } else { STRUCTURED };
    if random.percent(5) {
        return empty_layer(random, code, letters);
    }
    loop {
        let drawn = if letters == UNSTRUCTURED && random.percent(30) {
            scribble(random, code, 2 * size)
        } else {
            let shape = Shape::random(random, size);
            layer(random, code, letters, &shape)
        };
        if let Some(layer) = drawn {
            return spell_land(random, layer);
        }
    }
}

/// How many times in a hundred a layer of a sheet is unstructured.
fn unstructured_times(random: &mut Random) -> usize {
    *random.pick(&[0, 0, 0, 20, 50, 100])
}

/// The codes of so many meshes: rising, with the same first four digits.
fn mesh_codes(random: &mut Random, count: usize) -> Vec<i32> {
    let first = random.within(1000, 9999) * 100;
    let mut lasts: Vec<i32> = (0..64).map(|k| k / 8 * 10 + k % 8).collect();
    random.shuffle(&mut lasts);
    lasts.truncate(count);
    lasts.sort_unstable();
    lasts.into_iter().map(|last| first + last).collect()
}

fn mesh(random: &mut Random, code: i32, unstructured: usize, size: usize) -> Mesh {
    let codes: &[i32] = *random.pick(&[&[1][..], &[5], &[1, 5]]);
    let layers = codes.iter().map(|code| any_layer(random, *code, unstructured, size)).collect();
    Mesh { code, name: name(random), layers }
}

/// A random sheet. Size is about the number of cells in a layer.
pub fn sheet(random: &mut Random, meshes: usize, size: usize) -> Sheet {
    let codes = mesh_codes(random, meshes);
    let unstructured = unstructured_times(random);
    Sheet { meshes: codes.into_iter().map(|code| mesh(random, code, unstructured, size)).collect() }
}

/// A mesh has at most so many records: its M, and as many behind it as a total of five columns can tell.
pub const MOST_IN_MESH: usize = 1 + 99_999;

/// A sheet of exactly so many records: 2 to 6,399,936.
pub fn sheet_of(random: &mut Random, records: usize) -> Sheet {
    let least = if records < 7 { records.div_ceil(3) } else { records.div_ceil(MOST_IN_MESH) };
    let most = (records / 7).clamp(least, 64);
    let meshes = (least + random.below(3)).min(most);
    let codes = mesh_codes(random, meshes);
    let unstructured = unstructured_times(random);
    let mut left = records;
    let mut sheet = Sheet { meshes: Vec::new() };
    for (index, code) in codes.into_iter().enumerate() {
        let share = left / (meshes - index);
        sheet.meshes.push(mesh_of(random, code, unstructured, share));
        left -= share;
    }
    sheet
}

/// A mesh of exactly so many records, at least 2.
fn mesh_of(random: &mut Random, code: i32, unstructured: usize, records: usize) -> Mesh {
    for _ in 0..20 {
        let size = (1 + random.below(records)).min(2000);
        let mut mesh = mesh(random, code, unstructured, size);
        if fill(random, &mut mesh, records) {
            return mesh;
        }
    }
    let mut mesh = Mesh { code, ..sheet_s().meshes.remove(0) };
    if fill(random, &mut mesh, records) {
        return mesh;
    }
    let mut layers = vec![empty_layer(random, 1, STRUCTURED), empty_layer(random, 5, UNSTRUCTURED)];
    layers.truncate(records - 1);
    Mesh { code, name: name(random), layers }
}

/// Fills a mesh up to so many records, by standing still at a point of one line. False if that cannot be.
fn fill(random: &mut Random, mesh: &mut Mesh, records: usize) -> bool {
    let Some(missing) = records.checked_sub(mesh.length()) else {
        return false;
    };
    let mut lines: Vec<&mut Line> = mesh.layers.iter_mut().flat_map(|layer| &mut layer.lines).collect();
    if lines.is_empty() {
        return missing == 0;
    }
    let chosen = random.below(lines.len());
    let points = &mut lines[chosen].points;
    let at = random.below(points.len());
    let again = vec![points[at]; 7 * missing];
    points.splice(at..at, again);
    true
}

/// A sheet of thousands of points on few lines.
pub fn long_lines(random: &mut Random) -> Sheet {
    let shape = Shape {
        columns: 1 + random.below(3),
        rows: 1 + random.below(3),
        keep: 80,
        keep_frame: 100,
        islands: 50,
        depth: 1,
        petals: 20,
        cut: 20,
        points: 4000,
        shuffled: true,
    };
    let code = mesh_codes(random, 1)[0];
    let letters = *random.pick(&[UNSTRUCTURED, STRUCTURED]);
    let layers = vec![layer(random, 1, letters, &shape).expect("few lines fit")];
    Sheet { meshes: vec![Mesh { code, name: name(random), layers }] }
}

/// A sheet of few areas with long loops, over several loop records.
pub fn long_loops(random: &mut Random) -> Sheet {
    let shape = Shape {
        columns: 3 + random.below(5),
        rows: 3 + random.below(4),
        keep: *random.pick(&[5, 20, 40]),
        keep_frame: 100,
        islands: 4,
        depth: 1,
        petals: *random.pick(&[0, 0, 0, 30]),
        cut: *random.pick(&[80, 100]),
        points: *random.pick(&[0, 0, 3]),
        shuffled: true,
    };
    let code = mesh_codes(random, 1)[0];
    let layer_code = *random.pick(&[1, 5]);
    let layer = layer(random, layer_code, STRUCTURED, &shape).expect("few lines fit");
    let layers = vec![spell_land(random, layer)];
    Sheet { meshes: vec![Mesh { code, name: name(random), layers }] }
}

/// A sheet whose frame line and whose lake shore run around many times: measures grow large.
pub fn windings(random: &mut Random, most: usize) -> Sheet {
    let mut sheet = sheet_s();
    let layer = &mut sheet.meshes[0].layers[0];
    let frame = layer.lines[0].points.clone();
    layer.lines[0].points = around(&frame, 1 + random.below(most));
    let k = random.within(1, 4000);
    let shore: Vec<Point> = frame.iter().map(|(x, y)| (5000 + x.signum() * k, 5000 + y.signum() * k)).collect();
    let lake = Side { code: code(random, 1), zeros: false, area: 2 };
    layer.nodes.push(Node { item: 3, place: shore[0], entries: vec![-2, 2] });
    layer.lines.push(Line {
        item: 5,
        kind: 0,
        ends: [End { node: 2, link: 0 }; 2],
        left: layer.lines[0].right,
        right: lake,
        points: around(&shore, 1 + random.below(most)),
    });
    layer.areas[0].loops.push(vec![-2]);
    layer.areas.push(Area { code: lake.code, zeros: false, place: shore[0], loops: vec![vec![2]], name: name(random) });
    sheet
}

/// A ring of points, run through several times.
fn around(ring: &[Point], times: usize) -> Vec<Point> {
    let mut points = vec![ring[0]];
    (0..times).for_each(|_| points.extend(&ring[1..]));
    points
}

/// The accepted sheet of a seed. Most are small, some are long.
pub fn from_seed(seed: u64) -> Sheet {
    let random = &mut Random::new(seed);
    let sheet = match random.below(100) {
        0 => long_lines(random),
        1 => windings(random, 1000),
        2 => windings(random, 20),
        3 => sheet(random, 1, 100),
        4..=11 => sheet_of_some(random),
        12..=27 => long_loops(random),
        28..=35 => sheet(random, 3, 5),
        36..=80 => sheet(random, 2, 1),
        _ => sheet(random, 1, 3),
    };
    assert_accepted(&sheet);
    sheet
}

fn sheet_of_some(random: &mut Random) -> Sheet {
    let records = 2 + random.below(150);
    sheet_of(random, records)
}

/// Every generated file is accepted by our own judge, and the sums of each layer agree.
pub fn assert_accepted(sheet: &Sheet) {
    let verdict = verdict(&sheet.bytes());
    assert_eq!((verdict.early.number, verdict.late), (0, Default::default()), "{:?}", verdict.early);
    assert!(verdict.sums.iter().all(|sums| sums.areas == sums.outside));
}

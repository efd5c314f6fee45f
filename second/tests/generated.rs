//! Generated files are accepted, their sums agree, and they have what real sheets have.

use second::generate::{assert_accepted, from_seed, sheet_of, MOST_IN_MESH};
use second::layout::{STRUCTURED, UNSTRUCTURED};
use second::random::Random;
use second::sheet::{Area, Layer, Line, Mesh, Sheet, Side};
use std::collections::BTreeMap;

fn layers(sheet: &Sheet) -> impl Iterator<Item = &Layer> {
    sheet.meshes.iter().flat_map(|mesh| &mesh.layers)
}

#[test]
fn generated_files_are_accepted_and_rich() {
    let mut seen: BTreeMap<&str, usize> = BTreeMap::new();
    for seed in 0..1500 {
        let sheet = from_seed(seed);
        let mut see = |what, yes: bool| *seen.entry(what).or_default() += usize::from(yes);
        see("several meshes", sheet.meshes.len() > 1);
        see("both layers", sheet.meshes.iter().any(|mesh| mesh.layers.len() == 2));
        see_letters(&sheet, &mut see);
        for layer in layers(&sheet) {
            match layer.letters {
                STRUCTURED => see_layer(layer, &mut see),
                _ => see_lines(layer, &mut see),
            }
        }
    }
    println!("{seen:#?}");
    for (what, times) in seen {
        assert!(times >= 20, "{what}: {times}");
    }
}

/// Layers of both sorts, in one file and in one mesh.
fn see_letters(sheet: &Sheet, see: &mut impl FnMut(&'static str, bool)) {
    let letters = |mesh: &Mesh| mesh.layers.iter().map(|layer| layer.letters).collect::<Vec<_>>();
    let in_a_mesh = |order: [u32; 2]| sheet.meshes.iter().any(|mesh| letters(mesh) == order);
    see("unstructured before structured", in_a_mesh([UNSTRUCTURED, STRUCTURED]));
    see("structured before unstructured", in_a_mesh([STRUCTURED, UNSTRUCTURED]));
    see("both layers unstructured", in_a_mesh([UNSTRUCTURED; 2]));
    let alone = layers(sheet).all(|layer| layer.letters == UNSTRUCTURED);
    see("unstructured layers alone", alone);
    see("unstructured layers alone, several meshes", alone && sheet.meshes.len() > 1);
    let meshes: Vec<_> = sheet.meshes.iter().map(letters).collect();
    see("meshes of either sort", meshes.windows(2).any(|pair| pair[0] == [UNSTRUCTURED] && pair[1] == [STRUCTURED]));
}

/// An unstructured layer.
fn see_lines(layer: &Layer, see: &mut impl FnMut(&'static str, bool)) {
    assert!(layer.areas.is_empty());
    let closed = |line: &Line| line.ends[0].node == line.ends[1].node;
    let zeros = || layer.lines.iter().flat_map(|line| [line.left.zeros, line.right.zeros]);
    see("H1: no lines", layer.lines.is_empty());
    see("H1: one line", layer.lines.len() == 1);
    see("H1: closed line", layer.lines.iter().any(closed));
    see("H1: open line", layer.lines.iter().any(|line| !closed(line)));
    see("H1: a line stands still", layer.lines.iter().any(|line| line.points.iter().all(|point| *point == line.points[0])));
    see("H1: a line off the frame has item 9", layer.lines.iter().any(|line| line.item == 9 && line.ends[0].link == 0));
    see("H1: points of several records", layer.lines.iter().any(|line| line.points.len() > 7));
    see("H1: nine entries at a node", layer.nodes.iter().any(|node| node.entries.len() == 9));
    see("H1: one entry at a node", layer.nodes.iter().any(|node| node.entries.len() == 1));
    see("H1: dozens of lines", layer.lines.len() > 30);
    see("H1: land as 0000", layer.code == 5 && zeros().any(|zeros| zeros));
    see("H1: land spelled both ways", layer.code == 5 && zeros().any(|zeros| zeros) && zeros().any(|zeros| !zeros));
    see("H1: layer 1", layer.code == 1);
}

fn see_layer(layer: &Layer, see: &mut impl FnMut(&'static str, bool)) {
    see("no lines", layer.lines.is_empty());
    see("lines without areas", layer.areas.is_empty() && !layer.lines.is_empty());
    see("nine entries at a node", layer.nodes.iter().any(|node| node.entries.len() == 9));
    see("one entry at a node", layer.nodes.iter().any(|node| node.entries.len() == 1));
    see("closed line", layer.lines.iter().any(|line| line.ends[0].node == line.ends[1].node));
    see("two points", layer.lines.iter().any(|line| line.points.len() == 2));
    see("thousands of points", layer.lines.iter().any(|line| line.points.len() > 2000));
    see("outside on both sides", layer.lines.iter().any(|line| line.left.area == 0 && line.right.area == 0));
    see("one area on both sides", layer.lines.iter().any(|line| line.left.area != 0 && line.left.area == line.right.area));
    let land = |zeros| layer.code == 5 && layer.areas.iter().any(|area| area.code == 0 && area.zeros == zeros);
    see("land in layer 5", land(false));
    see("land as 0000", land(true));
    see("land spelled both ways", land(false) && land(true));
    let unlike = |line: &Line| [line.left, line.right].iter().any(|side| unlike_its_area(layer, side));
    see("land spelled unlike its area", layer.lines.iter().any(unlike));
    see("sea", layer.areas.iter().any(|area| area.code == 99999));
    let long = |area: &Area| area.loops.iter().any(|one| one.len() > 12);
    see("loop of several records", layer.areas.iter().any(long));
    see("hole", layer.areas.iter().any(|area| area.loops.len() > 1));
    see("many holes", layer.areas.iter().any(|area| area.loops.len() > 4));
    see("hole of several lines", layer.areas.iter().any(|area| area.loops[1..].iter().any(|one| one.len() > 1)));
    see("hundreds of lines", layer.lines.len() > 300);
}

/// A side of land that is spelled in another way than in its area.
fn unlike_its_area(layer: &Layer, side: &Side) -> bool {
    layer.code == 5 && side.code == 0 && layer.areas[side.area as usize - 1].zeros != side.zeros
}

#[test]
fn files_of_a_given_number_of_records() {
    let random = &mut Random::new(7);
    for records in (2..120).chain([1000, 99_999, 100_000, 100_001, 250_001]) {
        let sheet = sheet_of(random, records);
        assert_accepted(&sheet);
        assert_eq!(sheet.bytes().len(), 74 * records);
    }
}

/// A mesh may have 100,000 records: its total has five columns and leaves its M out.
#[test]
fn a_mesh_of_the_most_records() {
    let mut sheets = (0..).map(|seed| sheet_of(&mut Random::new(seed), MOST_IN_MESH));
    let sheet = sheets.find(|sheet| sheet.meshes.len() == 1).unwrap();
    assert_accepted(&sheet);
    assert_eq!((sheet.meshes[0].length(), sheet.meshes[0].behind()), (100_000, 99_999));
}

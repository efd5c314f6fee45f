//! Sheet S, its neighbours, and the cases of the fields.

use second::fields::{code, code_spelled, is_blank, is_name, number, spelled};
use second::generate::from_seed;
use second::judge::{judge, Counts};
use second::layout::{Kind, KINDS, STRUCTURED, UNSTRUCTURED};
use second::positions::position;
use second::product::{Product, Second};
use second::records::{bytes_of, read, write, Refusal, Value};
use second::sheet::{land_lines_s, land_s, lines_s, sheet_s, Layer, Sheet};
use second::sums::{sums_of_all, sums_of_layer, Sums};
use second::walk::record;

/// Sheet S with texts set at (record, column).
fn s_with(changes: &[(usize, usize, &[u8])]) -> Vec<u8> {
    with(sheet_s().bytes(), changes)
}

/// Sheet S of layer 5, with land on its ground and texts set.
fn land_with(changes: &[(usize, usize, &[u8])]) -> Vec<u8> {
    with(land_s().bytes(), changes)
}

/// Sheet S as an unstructured layer, with texts set.
fn lines_with(changes: &[(usize, usize, &[u8])]) -> Vec<u8> {
    with(lines_s().bytes(), changes)
}

fn with(mut file: Vec<u8>, changes: &[(usize, usize, &[u8])]) -> Vec<u8> {
    for (record, column, text) in changes {
        let at = (record - 1) * 74 + column - 1;
        file[at..at + text.len()].copy_from_slice(text);
    }
    file
}

fn answer(file: &[u8]) -> (u32, u32, u32) {
    let Refusal { number, record, column } = judge(file, &mut [0; 100], &mut [0; 100]).refusal;
    (number, record, column)
}

#[track_caller]
fn gives(changes: &[(usize, usize, &[u8])], expected: (u32, u32, u32)) {
    assert_eq!(answer(&s_with(changes)), expected);
}

#[test]
fn sheet_s_by_hand() {
    let name = "\u{1}\u{2}".repeat(20);
    let hand = [
        format!("M 533945{}  1    1    1    1    0    6{:16}", &name[..20], ""),
        format!("H2 1    1    1    1    0    5    0    0{:33}", ""),
        "N  1 3    1    0    0 1 2    1   -1    0    0    0    0    0    0    0  ".into(),
        format!("L  1 9    1     9    12    1288888    013101    1     5 0  0{:12}", ""),
        "    0    0    010000100001000010000    0    0    0    0    0    0    0  ".into(),
        format!("A  113101    1 5000 5000   1   1{name}"),
        "    1   1    1    0    0    0    0    0    0    0    0    0    0    0   ".into(),
    ];
    let mut bytes: Vec<u8> = hand.iter().flat_map(|line| format!("{line}\r\n").into_bytes()).collect();
    for byte in &mut bytes {
        *byte = match *byte {
            1 => 0x81,
            2 => 0x40,
            other => other,
        };
    }
    assert_eq!(bytes.len(), 518);
    assert_eq!(bytes, sheet_s().bytes());
}

#[test]
fn sheet_s_is_accepted() {
    let file = sheet_s().bytes();
    let (mut table, mut measures) = ([7; 8], [-1; 2]);
    let outcome = judge(&file, &mut table, &mut measures);
    assert_eq!(outcome.refusal, Refusal::default());
    assert_eq!(outcome.counts, Counts { meshes: 1, layers: 1, nodes: 1, lines: 1, areas: 1, records: 7 });
    assert_eq!(outcome.need, 0);
    assert_eq!(table, [2, 1, 1, 1, 2, 4, 6, 7]);
    assert_eq!(measures, [200_000_000, -1]);
    let sums = Sums { areas: 200_000_000, outside: 200_000_000 };
    assert_eq!(sums_of_layer(&file, &mut [0; 7], 1), (Refusal::default(), sums));
}

#[test]
fn the_proved_cases() {
    gives(&[], (0, 0, 0));
    gives(&[(1, 52, b"    7")], (10, 1, 52));
    gives(&[(3, 22, b" 0")], (6, 3, 22));
    gives(&[(3, 24, b" 1"), (3, 31, b"    0")], (14, 4, 24));
    gives(&[(5, 46, b"    1")], (12, 5, 41));
    gives(&[(5, 51, b"    7")], (6, 5, 51));
    gives(&[(7, 10, b"   -1")], (16, 7, 1));
    gives(&[(4, 30, b"13101    188888    0")], (17, 7, 10));
    gives(&[(2, 1, b"H1")], (6, 2, 15));
    gives(&[(1, 3, b"533985")], (6, 1, 3));
    assert_eq!(answer(&sheet_s().bytes()[..6 * 74]), (4, 7, 1));
}

#[test]
fn the_open_points() {
    gives(&[(4, 18, b"    2")], (11, 4, 18));
    gives(&[(4, 24, b"    0")], (11, 4, 24));
    gives(&[(7, 6, b"   2")], (6, 7, 15));
    gives(&[(3, 3, b" 5")], (8, 3, 3));
    gives(&[(3, 3, b" 2")], (6, 3, 3));
    gives(&[(1, 3, b"533985"), (1, 57, b"x")], (6, 1, 3));
    gives(&[(1, 72, b"x"), (7, 73, b"\n\n")], (2, 7, 73));
    gives(&[(6, 72, b"\x20")], (5, 6, 33));
    gives(&[(2, 31, b"9900")], (6, 2, 31));
    gives(&[(2, 31, b"  12"), (2, 36, b"9912")], (0, 0, 0));
    gives(&[(2, 36, b"  13")], (6, 2, 36));
    gives(&[(4, 45, b"    2")], (11, 4, 45));
    gives(&[(4, 40, b"13102")], (12, 4, 40));
    gives(&[(4, 23, b"0")], (12, 4, 23));
    gives(&[(4, 35, b"    1")], (6, 4, 35));
    gives(&[(4, 50, b"     1")], (6, 4, 50));
    gives(&[(4, 50, b"     8")], (5, 6, 1));
    gives(&[(3, 31, b"    1")], (12 + 1, 3, 31));
    gives(&[(6, 29, b"   2")], (10, 6, 29));
    gives(&[(7, 1, b"   -1")], (8, 7, 1));
}

/// Sheet S of layer 5 by hand: what RULES 11.3 changes in sheet S.
#[test]
fn land_by_hand() {
    let changes: [(usize, usize, &[u8]); 7] = [
        (2, 3, b" 5"), (3, 3, b" 5"), (4, 3, b" 5"), (6, 3, b" 5"), (3, 5, b" 1"), (4, 40, b" 0000"), (6, 5, b"    0"),
    ];
    assert_eq!(land_s().bytes(), s_with(&changes));
}

#[test]
fn land_is_accepted() {
    let file = land_s().bytes();
    let (mut table, mut measures) = ([7; 8], [-1; 2]);
    let outcome = judge(&file, &mut table, &mut measures);
    assert_eq!(outcome.refusal, Refusal::default());
    assert_eq!(outcome.counts, Counts { meshes: 1, layers: 1, nodes: 1, lines: 1, areas: 1, records: 7 });
    assert_eq!(table, [2, 1, 1, 1, 2, 4, 6, 7]);
    assert_eq!(measures, [200_000_000, -1]);
    let sums = Sums { areas: 200_000_000, outside: 200_000_000 };
    assert_eq!(sums_of_layer(&file, &mut [0; 7], 1), (Refusal::default(), sums));
}

#[test]
fn land_changed() {
    let gives = |changes: &[(usize, usize, &[u8])], expected| assert_eq!(answer(&land_with(changes)), expected, "{changes:?}");
    gives(&[], (0, 0, 0));
    gives(&[(4, 40, b"    0"), (6, 5, b" 0000")], (0, 0, 0));
    gives(&[(4, 40, b"    0")], (0, 0, 0));
    gives(&[(6, 5, b" 0000")], (0, 0, 0));
    gives(&[(4, 40, b"00000")], (5, 4, 40));
    gives(&[(6, 5, b"  000")], (5, 6, 5));
    gives(&[(4, 30, b" 0000")], (6, 4, 35));
    gives(&[(4, 30, b"    0")], (6, 4, 35));
    for ill in [b"00000", b"  000", b"   00", b"0000 ", b"-0000", b" 000 ", b"0 000", b" 0001", b" 000O", b"\x000000"] {
        gives(&[(4, 30, ill)], (5, 4, 30));
        gives(&[(4, 40, ill)], (5, 4, 40));
        gives(&[(6, 5, ill)], (5, 6, 5));
    }
    // Land is a code and no area, and no number but a code takes its spelling.
    gives(&[(4, 45, b"    0")], (6, 4, 45));
    gives(&[(4, 35, b" 0000")], (5, 4, 35));
    gives(&[(4, 45, b" 0000")], (5, 4, 45));
    gives(&[(2, 20, b" 0000")], (5, 2, 20));
    gives(&[(3, 12, b" 0000")], (5, 3, 12));
    gives(&[(3, 36, b" 0000")], (5, 3, 36));
    gives(&[(5, 1, b" 0000")], (5, 5, 1));
    gives(&[(6, 15, b" 0000")], (5, 6, 15));
    gives(&[(7, 15, b" 0000")], (5, 7, 15));
    // Another code beside land is 12 for either spelling.
    gives(&[(6, 5, b"    1")], (12, 4, 40));
    gives(&[(6, 5, b"    1"), (4, 40, b"    0")], (12, 4, 40));
    gives(&[(4, 40, b"    1"), (6, 5, b" 0000")], (12, 4, 40));
    // The record's own layer code says how its codes are spelled. Another one than its H's is told before them.
    gives(&[(4, 3, b" 1")], (8, 4, 3));
    gives(&[(4, 3, b"05")], (5, 4, 3));
    gives(&[(4, 3, b" 7")], (6, 4, 3));
    gives(&[(6, 3, b" 1"), (6, 5, b" 0000")], (8, 6, 3));
}

#[test]
fn land_in_layer_1() {
    gives(&[(4, 40, b" 0000")], (5, 4, 40));
    gives(&[(4, 40, b"    0")], (6, 4, 40));
    gives(&[(4, 30, b" 0000")], (5, 4, 30));
    gives(&[(6, 5, b" 0000")], (5, 6, 5));
    gives(&[(4, 3, b" 5"), (4, 40, b" 0000")], (8, 4, 3));
}

/// Sheet S as an unstructured layer by hand: what RULES 11.4 changes in sheet S.
#[test]
fn lines_by_hand() {
    let changes: [(usize, usize, &[u8]); 6] = [
        (1, 42, b"    0"), (1, 52, b"    4"), (2, 1, b"H1"), (2, 15, b"    0"), (2, 25, b"    3"),
        (4, 30, b"    0    0    0    0"),
    ];
    assert_eq!(lines_s().bytes(), s_with(&changes)[..5 * 74]);
    let land: [(usize, usize, &[u8]); 5] =
        [(2, 3, b" 5"), (3, 3, b" 5"), (4, 3, b" 5"), (3, 5, b" 1"), (4, 30, b" 0000")];
    assert_eq!(land_lines_s().bytes(), lines_with(&land));
}

#[test]
fn lines_are_accepted() {
    for file in [lines_s().bytes(), land_lines_s().bytes()] {
        let (mut table, mut sums) = ([7; 8], [-1; 3]);
        let outcome = judge(&file, &mut table, &mut []);
        let counts = Counts { meshes: 1, layers: 1, nodes: 1, lines: 1, areas: 0, records: 5 };
        assert_eq!((outcome.refusal, outcome.counts, outcome.need), (Refusal::default(), counts, 0));
        assert_eq!(table, [2, 1, 1, 0, 1, 4, 7, 7]);
        assert_eq!(Second.need(&file), 6);
        let nothing = Sums { areas: 0, outside: 0 };
        assert_eq!(sums_of_layer(&file, &mut [0; 6], 1), (Refusal::default(), nothing));
        assert_eq!(sums_of_all(&file, &mut [0; 6], &mut sums).counts, counts);
        assert_eq!(sums, [0, 0, -1]);
        let short = judge(&file, &mut [0; 5], &mut []);
        assert_eq!((short.refusal.number, short.need), (9, 6));
    }
}

#[test]
fn lines_changed() {
    let gives = |changes: &[(usize, usize, &[u8])], expected| assert_eq!(answer(&lines_with(changes)), expected, "{changes:?}");
    gives(&[], (0, 0, 0));
    gives(&[(2, 1, b"H2")], (6, 4, 30));
    gives(&[(2, 1, b"H3")], (3, 2, 1));
    gives(&[(2, 15, b"    1")], (6, 2, 15));
    gives(&[(4, 30, b"88888")], (6, 4, 30));
    gives(&[(4, 35, b"    1")], (6, 4, 35));
    gives(&[(4, 40, b"13101")], (6, 4, 40));
    gives(&[(4, 45, b"    1")], (6, 4, 45));
    gives(&[(3, 24, b" 1"), (3, 31, b"    0")], (14, 4, 24));
    gives(&[(1, 42, b"    1")], (10, 1, 42));
    // Anything but 0, at its own start, and the first of several.
    for text in [b"    1", b"   -1", b"13101", b"88888", b"99999", b"-9999"] {
        for (record, column) in [(2, 15), (4, 30), (4, 35), (4, 40), (4, 45)] {
            gives(&[(record, column, text)], (6, record as u32, column as u32));
        }
    }
    gives(&[(4, 30, b"88888    088888    0")], (6, 4, 30));
    gives(&[(4, 35, b"    113101    1")], (6, 4, 35));
    gives(&[(4, 40, b"13101    1")], (6, 4, 40));
    gives(&[(2, 15, b"    1"), (4, 30, b"88888")], (6, 2, 15));
    // An ill-formed field is 5, and land has its spelling in layer 5 alone.
    for column in [30, 35, 40, 45] {
        for ill in [b" 0000", b"00000", b"     ", b"   -0"] {
            gives(&[(4, column, ill)], (5, 4, column as u32));
        }
    }
    gives(&[(2, 15, b" 0000")], (5, 2, 15));
    // All other rules are the same: letters, codes of layers, serials, items, kinds, links, nodes, points, totals.
    gives(&[(2, 1, b"h1")], (3, 2, 1));
    gives(&[(2, 1, b"H ")], (3, 2, 1));
    gives(&[(1, 1, b"H1")], (3, 1, 1));
    gives(&[(3, 1, b"H1")], (3, 3, 1));
    gives(&[(4, 1, b"H1")], (3, 4, 1));
    gives(&[(2, 3, b" 2")], (6, 2, 3));
    gives(&[(4, 3, b" 5")], (8, 4, 3));
    gives(&[(2, 10, b"10000")], (6, 2, 10));
    gives(&[(2, 20, b"    1")], (6, 2, 20));
    gives(&[(2, 25, b"    4")], (10, 2, 25));
    gives(&[(2, 36, b"  13")], (6, 2, 36));
    gives(&[(3, 5, b" 6")], (6, 3, 5));
    gives(&[(3, 7, b"    2")], (8, 3, 7));
    gives(&[(3, 22, b" 0")], (6, 3, 22));
    gives(&[(3, 24, b" 3")], (6, 3, 36));
    gives(&[(3, 26, b"    2")], (11, 3, 26));
    gives(&[(3, 31, b"    1")], (13, 3, 31));
    gives(&[(4, 5, b" 6")], (6, 4, 5));
    gives(&[(4, 7, b"    2")], (8, 4, 7));
    gives(&[(4, 12, b"     1")], (6, 4, 12));
    gives(&[(4, 18, b"    2")], (11, 4, 18));
    gives(&[(4, 23, b"3")], (6, 4, 23));
    gives(&[(4, 29, b"0")], (12, 4, 29));
    gives(&[(4, 50, b"     1")], (6, 4, 50));
    gives(&[(4, 56, b" 1")], (6, 4, 56));
    gives(&[(5, 46, b"    1")], (12, 5, 41));
    gives(&[(5, 51, b"    7")], (6, 5, 51));
    gives(&[(1, 52, b"    5")], (10, 1, 52));
    assert_eq!(answer(&lines_s().bytes()[..4 * 74]), (4, 5, 1));
    // What stands behind the last line is no area, whatever it is.
    let areas = &sheet_s().bytes()[5 * 74..];
    assert_eq!(answer(&[&lines_s().bytes(), areas].concat()), (3, 6, 1));
    assert_eq!(answer(&[&lines_with(&[(2, 15, b"    1")]), areas].concat()), (6, 2, 15));
}

/// Under an H1 of layer 5 land may stand, in both spellings, and nothing else.
#[test]
fn lines_in_layer_5() {
    let gives = |changes: &[(usize, usize, &[u8])], expected| {
        assert_eq!(answer(&with(land_lines_s().bytes(), changes)), expected, "{changes:?}")
    };
    gives(&[], (0, 0, 0));
    gives(&[(4, 30, b"    0")], (0, 0, 0));
    gives(&[(4, 40, b" 0000")], (0, 0, 0));
    gives(&[(4, 30, b"    0"), (4, 40, b" 0000")], (0, 0, 0));
    // Under an H2 land is a code, and an area has to lie beside it.
    gives(&[(2, 1, b"H2")], (6, 4, 35));
    for (column, code, area) in [(30, 30, 35), (40, 40, 45)] {
        gives(&[(4, column, b"88888")], (6, 4, code));
        gives(&[(4, column, b"    1")], (6, 4, code));
        gives(&[(4, column, b"00000")], (5, 4, code));
        gives(&[(4, column, b" 0000    1")], (6, 4, area));
        gives(&[(4, column, b" 0000 0000")], (5, 4, area));
    }
    gives(&[(4, 3, b" 1")], (8, 4, 3));
}

/// A structured layer without areas has nobody on both sides of its lines. It is not an unstructured one.
#[test]
fn a_structured_layer_without_areas() {
    let nobody: &[u8] = b"88888    088888    0";
    let file = lines_with(&[(2, 1, b"H2"), (4, 30, nobody)]);
    let mut table = [7; 7];
    assert_eq!(judge(&file, &mut table, &mut []).refusal, Refusal::default());
    assert_eq!(table, [2, 1, 1, 0, 2, 4, 7]);
    assert_eq!(answer(&lines_with(&[(4, 30, nobody)])), (6, 4, 30));
}

/// Layers of both sorts in every order in a mesh and in a file.
#[test]
fn lines_among_areas() {
    let layer = |sheet: Sheet| sheet.meshes[0].layers[0].clone();
    let file = |meshes: &[&[&Layer]]| {
        let mut sheet = Sheet { meshes: vec![] };
        for (code, layers) in (533_940..).zip(meshes) {
            let mut mesh = sheet_s().meshes.remove(0);
            mesh.code = code;
            mesh.layers = layers.iter().map(|layer| (*layer).clone()).collect();
            sheet.meshes.push(mesh);
        }
        sheet.bytes()
    };
    let (lines, areas) = (&layer(lines_s()), &layer(sheet_s()));
    let (land_lines, land) = (&layer(land_lines_s()), &layer(land_s()));
    let orders: [(&[&[&Layer]], &[u32]); 6] = [
        (&[&[lines, land]], &[2, 1, 1, 0, 1, 6, 1, 1, 1, 2, 4, 8, 10]),
        (&[&[areas, land_lines]], &[2, 1, 1, 1, 2, 8, 1, 1, 0, 1, 4, 10, 6]),
        (&[&[lines, land_lines]], &[2, 1, 1, 0, 1, 6, 1, 1, 0, 1, 4, 8]),
        (&[&[lines], &[areas]], &[2, 1, 1, 0, 1, 7, 1, 1, 1, 2, 4, 9, 11]),
        (&[&[areas], &[lines]], &[2, 1, 1, 1, 2, 9, 1, 1, 0, 1, 4, 11, 6]),
        (&[&[land_lines], &[lines]], &[2, 1, 1, 0, 1, 7, 1, 1, 0, 1, 4, 9]),
    ];
    for (meshes, expected) in orders {
        let file = file(meshes);
        let (mut table, mut sums) = (vec![0; expected.len()], [-1; 4]);
        assert_eq!(sums_of_all(&file, &mut table, &mut sums).refusal, Refusal::default());
        assert_eq!(table, expected);
        for (row, sums) in table.chunks(5).zip(sums.chunks(2)) {
            assert_eq!(sums, [if row[4] == STRUCTURED { 200_000_000 } else { 0 }; 2]);
        }
    }
    assert_eq!(answer(&file(&[&[lines, areas]])), (8, 6, 3));
    assert_eq!(answer(&file(&[&[areas, lines]])), (8, 8, 3));
    assert_eq!(answer(&file(&[&[lines, lines]])), (8, 6, 3));
    assert_eq!(answer(&file(&[&[land_lines, land]])), (8, 6, 3));
    assert_eq!(answer(&file(&[&[land, land_lines]])), (8, 8, 3));
    assert_eq!(answer(&file(&[&[land_lines, areas]])), (8, 6, 3));
    assert_eq!(answer(&file(&[&[land, lines]])), (8, 8, 3));
}

/// A records total leaves out the record that bears it. An M counts its H records, each with all that is behind it.
#[test]
fn records_totals() {
    let s = |mesh, layer, expected| gives(&[(1, 52, mesh), (2, 25, layer)], expected);
    s(b"    6", b"    5", (0, 0, 0));
    s(b"    7", b"    5", (10, 1, 52));
    s(b"    5", b"    5", (10, 1, 52));
    s(b"    6", b"    6", (10, 2, 25));
    s(b"    6", b"    4", (10, 2, 25));
    // The old way counted the M and the H as well. The M stands first.
    s(b"    7", b"    6", (10, 1, 52));
    s(b"99999", b"    5", (10, 1, 52));
    s(b"    0", b"    0", (10, 1, 52));
    s(b"    6", b"    0", (10, 2, 25));
    s(b"    7", b"   -1", (6, 2, 25));
    // Two layers, the second one unstructured: five records behind the first H, three behind the other.
    let both = |mesh: &[u8], one: &[u8], two: &[u8]| {
        let totals: &[u8] = b"  2    2    2    1    0";
        let first = s_with(&[(1, 29, totals), (1, 52, mesh), (2, 25, one)]);
        answer(&[&first, &with(land_lines_s().bytes(), &[(2, 25, two)])[74..]].concat())
    };
    assert_eq!(both(b"   10", b"    5", b"    3"), (0, 0, 0));
    assert_eq!(both(b"   11", b"    6", b"    4"), (10, 1, 52));
    assert_eq!(both(b"   10", b"    6", b"    4"), (10, 2, 25));
    assert_eq!(both(b"   10", b"    5", b"    4"), (10, 8, 25));
    assert_eq!(both(b"   11", b"    5", b"    3"), (10, 1, 52));
    for mesh in [b"    9", b"    8", b"    6", b"    5", b"    4", b"   12"] {
        assert_eq!(both(mesh, b"    5", b"    3"), (10, 1, 52));
    }
    // In the second mesh of a file.
    let second = |mesh, layer| {
        let first = sheet_s().bytes();
        answer(&[first, s_with(&[(1, 3, b"533946"), (1, 52, mesh), (2, 25, layer)])].concat())
    };
    assert_eq!(second(b"    6", b"    5"), (0, 0, 0));
    assert_eq!(second(b"    7", b"    6"), (10, 8, 52));
    assert_eq!(second(b"    6", b"    6"), (10, 9, 25));
}

/// An H alone has 0 records, and its M has 1.
#[test]
fn an_h_alone() {
    for letters in [b"H1", b"H2"] {
        let none: &[u8] = b"    0    0    0    0";
        let changes: [(usize, usize, &[u8]); 5] =
            [(1, 32, none), (1, 52, b"    1"), (2, 1, letters), (2, 5, none), (2, 25, b"    0")];
        let file = with(sheet_s().bytes()[..2 * 74].to_vec(), &changes);
        let mut table = [7; 6];
        let outcome = judge(&file, &mut table, &mut []);
        let counts = Counts { meshes: 1, layers: 1, nodes: 0, lines: 0, areas: 0, records: 2 };
        assert_eq!((outcome.refusal, outcome.counts), (Refusal::default(), counts));
        assert_eq!(table, [2, 0, 0, 0, u32::from(letters[1] - b'0'), 7]);
        let gives = |mesh: &[u8], layer: &[u8], expected| {
            assert_eq!(answer(&with(file.clone(), &[(1, 52, mesh), (2, 25, layer)])), expected);
        };
        gives(b"    1", b"    1", (10, 2, 25));
        gives(b"    2", b"    1", (10, 1, 52));
        gives(b"    2", b"    0", (10, 1, 52));
        gives(b"    0", b"    0", (10, 1, 52));
        gives(b"    1", b"   -1", (6, 2, 25));
    }
}

#[test]
fn lengths() {
    let s = sheet_s().bytes();
    assert_eq!(answer(&[]), (1, 1, 1));
    assert_eq!(answer(&s[..73]), (1, 1, 1));
    assert_eq!(answer(&s[..517]), (1, 7, 1));
    let mut cut = s_with(&[(3, 74, b"\r")]);
    cut.push(b' ');
    assert_eq!(answer(&cut), (2, 3, 74));
    let twice = [s.clone(), s.clone()].concat();
    assert_eq!(answer(&twice), (8, 8, 3));
    assert_eq!(answer(&[s.clone(), s_with(&[(1, 3, b"533946")])].concat()), (0, 0, 0));
    assert_eq!(answer(&[s.clone(), s_with(&[(1, 3, b"534045")])].concat()), (8, 8, 3));
    assert_eq!(answer(&[s_with(&[(1, 3, b"533946")]), s.clone()].concat()), (8, 8, 3));
    assert_eq!(answer(&[s.clone(), s[74..].to_vec()].concat()), (3, 8, 1));
}

#[test]
fn a_file_may_not_have_too_many_records() {
    let mut file = vec![0; 6_399_937 * 74];
    for record in file.chunks_mut(74) {
        record[72..].copy_from_slice(b"\r\n");
    }
    assert_eq!(answer(&file), (1, 6_399_937, 1));
    assert_eq!(answer(&file[..file.len() - 1]), (1, 6_399_937, 1));
    assert_eq!(answer(&file[..file.len() - 74]), (3, 1, 1));
    file[6_399_936 * 74 - 1] = 0;
    assert_eq!(answer(&file), (2, 6_399_936, 74));
}

#[test]
fn buffers() {
    let s = sheet_s().bytes();
    let mut table = [7; 6];
    let outcome = judge(&s, &mut table, &mut [0; 1]);
    assert_eq!((outcome.refusal.number, outcome.need, outcome.counts), (9, 7, Counts::default()));
    assert_eq!(table, [7; 6]);
    let mut table = [7; 7];
    let outcome = judge(&s, &mut table, &mut []);
    assert_eq!((outcome.refusal.number, outcome.need, outcome.counts), (19, 0, Counts::default()));
    assert_eq!(table, [2, 1, 1, 1, 2, 4, 6]);
    let short = judge(&s_with(&[(1, 52, b"    7")]), &mut [0; 6], &mut []);
    assert_eq!((short.refusal.number, short.need), (9, 7));
    let none = |number| (Refusal { number, record: 0, column: 0 }, Sums::default());
    assert_eq!(sums_of_layer(&s, &mut [0; 7], 0), none(22));
    assert_eq!(sums_of_layer(&s, &mut [0; 7], 2), none(22));
    assert_eq!(sums_of_layer(&s, &mut [0; 6], 2), none(9));
}

#[test]
fn sums_of_all_layers() {
    let s = sheet_s().bytes();
    let wrong_total = s_with(&[(1, 52, b"    7")]);
    let cases: [(&[u8], usize, usize, (u32, u32, u32), u64); 10] = [
        (&s, 7, 0, (48, 0, 0), 0),
        (&s, 8, 1, (48, 0, 0), 0),
        (&s, 7, 2, (0, 0, 0), 0),
        (&s, 8, 3, (0, 0, 0), 0),
        (&s, 6, 2, (9, 0, 0), 7),
        (&s, 0, 0, (9, 0, 0), 7),
        (&wrong_total, 6, 1, (9, 0, 0), 7),
        (&wrong_total, 7, 0, (10, 1, 52), 0),
        (&s[..6 * 74], 8, 3, (4, 7, 1), 0),
        (&[], 8, 0, (1, 1, 1), 0),
    ];
    for (file, words, room, place, need) in cases {
        let (mut table, mut sums) = ([7; 8], [-1; 3]);
        let outcome = sums_of_all(file, &mut table[..words], &mut sums[..room]);
        let Refusal { number, record, column } = outcome.refusal;
        assert_eq!(((number, record, column), outcome.need), (place, need));
        let counts = Counts { meshes: 1, layers: 1, nodes: 1, lines: 1, areas: 1, records: 7 };
        assert_eq!(outcome.counts, if number == 0 { counts } else { Counts::default() });
        assert_eq!(table, if number == 0 || number > 9 { [2, 1, 1, 1, 2, 4, 6, 7] } else { [7; 8] });
        assert_eq!(sums, if number == 0 { [200_000_000, 200_000_000, -1] } else { [-1; 3] });
    }
}

#[test]
fn all_layers_have_the_sums_of_each() {
    let mut several = 0;
    for seed in 0..200 {
        let file = from_seed(seed).bytes();
        let (mut table, mut sums) = (vec![7; file.len() / 18], [-1; 100]);
        let counts = judge(&file, &mut table, &mut vec![0; file.len() / 74]).counts;
        let judged = table.clone();
        let room = 2 * counts.layers as usize;
        for short in [0, room / 2, room - 1] {
            let refusal = Refusal { number: 48, record: 0, column: 0 };
            assert_eq!(sums_of_all(&file, &mut table, &mut sums[..short]).refusal, refusal);
        }
        assert_eq!(sums, [-1; 100]);
        assert_eq!(sums_of_all(&file, &mut table, &mut sums).counts, counts);
        assert_eq!(table, judged);
        for layer in 1..=counts.layers {
            let [areas, outside] = sums[2 * layer as usize - 2..2 * layer as usize] else { unreachable!() };
            assert_eq!(sums_of_layer(&file, &mut table, layer), (Refusal::default(), Sums { areas, outside }));
        }
        assert!(sums[room..].iter().all(|sum| *sum == -1));
        several += usize::from(counts.layers > 1);
    }
    assert!(several > 50, "{several}");
}

#[test]
fn number_fields() {
    let good: [(&[u8], i32); 9] = [
        (b"   -1", -1), (b"    0", 0), (b"99999", 99999), (b"-9999", -9999), (b"   10", 10), (b"0", 0), (b"9", 9),
        (b"999999", 999_999), (b"-1", -1),
    ];
    for (field, value) in good {
        assert_eq!(number(field), Some(value));
        assert_eq!(&spelled(value, field.len()).unwrap()[..field.len()], field);
    }
    let wrong: [&[u8]; 17] = [
        b"00001", b"   -0", b"     ", b"    -", b"-   1", b"1    ", b"  1 1", b"   +1", b"   --", b"  --1", b"   1-",
        b"  -01", b"    x", b"-", b" ", b"\t   1", b"   \x001",
    ];
    for field in wrong {
        assert_eq!(number(field), None, "{field:?}");
    }
    assert_eq!(spelled(10, 1), None);
    assert_eq!(spelled(-1, 1), None);
    assert_eq!(spelled(-10_000, 5), None);
    assert_eq!(spelled(100_000, 5), None);
    assert_eq!(spelled(i32::MIN, 6), None);
}

/// As a code " 0000" is 0 with mark 1, in layer 5 alone. All other texts are what they are as a number, with mark 0.
#[test]
fn codes() {
    let layers = [None, Some(0), Some(1), Some(4), Some(5), Some(6), Some(15), Some(55), Some(-5)];
    for layer in layers {
        for k in 0..5usize.pow(5) {
            let field: [u8; 5] = std::array::from_fn(|place| b" 0-19"[k / 5usize.pow(place as u32) % 5]);
            let land = layer == Some(5) && field == *b" 0000";
            assert_eq!(code(&field, layer), if land { Some((0, 1)) } else { number(&field).map(|code| (code, 0)) });
        }
        for value in [0, 1, -1, 5, 88888, 99999, 100_000, i32::MIN] {
            assert_eq!(code_spelled(value, 0, layer), spelled(value, 5));
            for mark in [1, 2, 3, 256, 257, u32::MAX] {
                let land = (value, mark, layer) == (0, 1, Some(5));
                assert_eq!(code_spelled(value, mark, layer), land.then_some(*b" 0000   "));
            }
        }
    }
}

#[test]
fn every_text_of_width_three() {
    let bytes = *b" -0129/:";
    let mut good = 0;
    for k in 0..8usize.pow(3) {
        let field = [bytes[k / 64], bytes[k / 8 % 8], bytes[k % 8]];
        let text = std::str::from_utf8(&field).unwrap();
        let known = (-99..=999).find(|value| format!("{value:3}") == text);
        assert_eq!(number(&field), known, "{text}");
        good += usize::from(known.is_some());
    }
    assert_eq!(good, 4 + 3 * 4 + 3 * 4 * 4 + 3 + 3 * 4);
}

#[test]
fn names_and_blanks() {
    assert!(is_name(&[0x81, 0x40, 0xFC, 0xFC, 0xE0, 0x7E, 0x9F, 0x80]));
    let wrong = [[0x80, 0x40], [0xA0, 0x40], [0xFD, 0x40], [0x81, 0x3F], [0x81, 0x7F], [0x81, 0xFD], [0x20, 0x20]];
    for pair in wrong {
        assert!(!is_name(&pair));
    }
    assert!(is_blank(b"  ") && !is_blank(b" 0"));
}

#[test]
fn single_records() {
    let s = sheet_s().bytes();
    let kinds = KINDS;
    for (index, kind) in kinds.into_iter().enumerate() {
        let bytes = record(&s, index + 1);
        let value = read(kind, bytes).unwrap();
        let mut buffer = [b'#'; 80];
        assert_eq!(write(&value, &mut buffer), 0);
        assert_eq!((&buffer[..74], &buffer[74..]), (bytes, &[b'#'; 6][..]));
        assert_eq!(write(&value, &mut buffer[..73]), 21);
    }
    let refused = |number, column| Err(Refusal { number, record: 1, column });
    let h = record(&s, 2);
    assert_eq!(read(Kind::H, &h[..73]), refused(1, 1));
    assert_eq!(read(Kind::M, h), refused(3, 1));
    let mut h1 = h.to_vec();
    h1[1] = b'3';
    h1[4] = b'x';
    assert_eq!(read(Kind::H, &h1), refused(3, 1));
    h1[1] = b'1';
    assert_eq!(read(Kind::H, &h1), refused(5, 5));
    assert_eq!(read(Kind::N, &h1), refused(3, 1));
    h1[1] = b'2';
    assert_eq!(read(Kind::H, &h1), refused(5, 5));
    h1[73] = 0;
    assert_eq!(read(Kind::H, &h1), refused(2, 74));
    assert_eq!(record(&s, 0), &[]);
    assert_eq!(record(&s[..517], 7), &[]);
}

/// Both ways, with marks: an L has two, an A one, and a refused reading has none.
#[test]
fn marks_are_read_and_written() {
    let cases: [(Kind, &[(usize, usize, &[u8])], [u32; 2]); 7] = [
        (Kind::L, &[], [0, 1]),
        (Kind::L, &[(4, 30, b" 0000")], [1, 1]),
        (Kind::L, &[(4, 30, b" 0000"), (4, 40, b"    0")], [1, 0]),
        (Kind::L, &[(4, 30, b"    0"), (4, 40, b"    0")], [0, 0]),
        (Kind::A, &[], [0, 0]),
        (Kind::A, &[(6, 5, b" 0000")], [1, 0]),
        (Kind::Loop, &[], [0, 0]),
    ];
    for (kind, changes, marks) in cases {
        let file = land_with(changes);
        let bytes = record(&file, kind as usize);
        let value = read(kind, bytes).unwrap();
        assert_eq!(value.marks, marks);
        assert_eq!(bytes_of(&value).unwrap(), *bytes);
    }
    let refused = |column| Err(Refusal { number: 5, record: 1, column });
    let read_l = |changes| read(Kind::L, record(&land_with(changes), 4));
    assert_eq!(read_l(&[(4, 3, b" 1")]), refused(40));
    assert_eq!(read_l(&[(4, 3, b" 1"), (4, 30, b" 0000")]), refused(30));
    assert_eq!(read_l(&[(4, 3, b"15")]), refused(40));
    assert_eq!(read_l(&[(4, 3, b"-5")]), refused(40));
    assert_eq!(read_l(&[(4, 3, b"05")]), refused(3));
    assert_eq!(read_l(&[(4, 3, b"5 ")]), refused(3));
    assert_eq!(read_l(&[(4, 45, b" 0000")]), refused(45));
    assert_eq!(read(Kind::A, record(&land_with(&[(6, 5, b"00000")]), 6)), refused(5));
    let (_, value) = Second.read_record(4, record(&land_with(&[(4, 61, b"x")]), 4));
    assert_eq!(value, Value::empty(Kind::L).into());
}

#[test]
fn marks_that_do_not_fit() {
    let file = land_s().bytes();
    let value = |kind: Kind| read(kind, record(&file, kind as usize)).unwrap();
    let number = |value: Value, length: usize| {
        let mut buffer = [b'#'; 80];
        let number = write(&value, &mut buffer[..length]);
        assert!(number == 0 || buffer == [b'#'; 80]);
        number
    };
    for mark in [2, 3, 256, 257, 0x1_0001, u32::MAX] {
        for marks in [[mark, 0], [0, mark], [mark, mark], [1, mark]] {
            for kind in KINDS {
                assert_eq!(number(Value { marks, ..value(kind) }, 80), 20);
                assert_eq!(number(Value { marks, ..value(kind) }, 73), 21);
            }
        }
    }
    // A mark of 1 stands beside code 0, in layer 5, in a place that the kind has.
    let mut l = value(Kind::L);
    assert_eq!((l.numbers[8], l.numbers[10], l.marks), (88888, 0, [0, 1]));
    assert_eq!(number(l, 74), 0);
    assert_eq!(number(Value { marks: [1, 0], ..l }, 74), 20);
    assert_eq!(number(Value { marks: [1, 1], ..l }, 74), 20);
    l.numbers[0] = 1;
    assert_eq!(number(l, 74), 20);
    assert_eq!(number(l, 73), 21);
    assert_eq!(number(Value { marks: [0, 0], ..l }, 74), 0);
    let mut a = value(Kind::A);
    assert_eq!(number(Value { marks: [1, 0], ..a }, 74), 0);
    assert_eq!(number(Value { marks: [0, 1], ..a }, 74), 20);
    assert_eq!(number(Value { marks: [1, 1], ..a }, 74), 20);
    a.numbers[1] = 1;
    assert_eq!(number(Value { marks: [1, 0], ..a }, 74), 20);
    for kind in [Kind::M, Kind::H, Kind::N, Kind::Coordinates, Kind::Loop] {
        assert_eq!(number(value(kind), 74), 0);
        assert_eq!(number(Value { marks: [1, 0], ..value(kind) }, 74), 20);
        assert_eq!(number(Value { marks: [0, 1], ..value(kind) }, 74), 20);
    }
}

/// Both ways, with letters: an H has 1 or 2, the other kinds and a refused reading have none. Areas of an H1 aren't judged here.
#[test]
fn letters_are_read_and_written() {
    for (sheet, letters) in [(sheet_s(), STRUCTURED), (lines_s(), UNSTRUCTURED), (land_lines_s(), UNSTRUCTURED)] {
        for (kind, bytes) in sheet.records() {
            let value = read(kind, &bytes).unwrap();
            assert_eq!(value.letters, if kind == Kind::H { letters } else { 0 });
            assert_eq!(bytes_of(&value), Some(bytes));
        }
    }
    let h = |changes: &[(usize, usize, &[u8])]| record(&lines_with(changes), 2).to_vec();
    let with_areas = h(&[(2, 15, b"    1")]);
    let value = read(Kind::H, &with_areas).unwrap();
    assert_eq!((value.letters, value.numbers[3]), (1, 1));
    assert_eq!(bytes_of(&value).unwrap(), with_areas[..]);
    for letters in [b"H3", b"H0", b"H ", b"h1", b" 1", b"1H", b"HH", b"M "] {
        assert_eq!(read(Kind::H, &h(&[(2, 1, letters)])), Err(Refusal { number: 3, record: 1, column: 1 }));
    }
    for kind in [Kind::M, Kind::N, Kind::L, Kind::A] {
        assert_eq!(read(kind, &h(&[])), Err(Refusal { number: 3, record: 1, column: 1 }));
    }
    let (_, value) = Second.read_record(2, &h(&[(2, 40, b"x")]));
    assert_eq!(value, Value::empty(Kind::H).into());
}

#[test]
fn letters_that_do_not_fit() {
    let number = |value: Value, length: usize| {
        let mut buffer = [b'#'; 80];
        let number = write(&value, &mut buffer[..length]);
        assert!(number == 0 || buffer == [b'#'; 80]);
        number
    };
    for (kind, bytes) in [sheet_s(), lines_s()].iter().flat_map(Sheet::records) {
        let value = read(kind, &bytes).unwrap();
        for letters in [0, 1, 2, 3, 4, 49, 50, 255, 256, 257, 258, 0x1_0001, 0x1_0002, 0x8000_0001, u32::MAX] {
            let fits = if kind == Kind::H { [1, 2].contains(&letters) } else { letters == 0 };
            assert_eq!(number(Value { letters, ..value }, 80), if fits { 0 } else { 20 });
            assert_eq!(number(Value { letters, ..value }, 73), 21);
        }
    }
}

#[test]
fn values_that_do_not_fit() {
    let h = Value { letters: STRUCTURED, ..Value::empty(Kind::H) };
    assert!(bytes_of(&h).is_some());
    assert!(bytes_of(&Value::empty(Kind::H)).is_none());
    let mut unused = h;
    unused.numbers[8] = 1;
    assert!(bytes_of(&unused).is_none());
    unused = h;
    unused.name[0] = 0x81;
    assert!(bytes_of(&unused).is_none());
    let mut m = Value::empty(Kind::M);
    assert!(bytes_of(&m).is_none(), "a name of zeros is no name");
    m.name[..20].copy_from_slice(&[0x81, 0x40].repeat(10));
    assert!(bytes_of(&m).is_some());
    m.name[20] = 0x81;
    assert!(bytes_of(&m).is_none());
    let mut l = Value::empty(Kind::L);
    l.numbers[5] = 10;
    assert!(bytes_of(&l).is_none());
}

#[test]
fn latitude_and_longitude() {
    assert_eq!(position(533_945, 10_000, 10_000), Ok((35.75, 139.75)));
    assert_eq!(position(533_945, 0, 0).unwrap().1, 139.625);
    assert_eq!(position(533_985, 0, 0), Err(6));
    assert_eq!(position(533_945, -1, 0), Err(6));
    assert_eq!(position(533_945, 0, 10_001), Err(6));
    assert_eq!(position(99_900, 0, 0), Err(6));
}

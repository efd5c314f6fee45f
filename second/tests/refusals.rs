//! Damages reach every refusal of a file, and each of the later ones at every column where it can stand, under an H1 too.

use second::compare::letters_over;
use second::damage::damaged;
use second::generate::from_seed;
use second::judge::verdict;
use second::layout::{Kind, UNSTRUCTURED};
use second::random::Random;
use second::records::Refusal;
use second::sums::{answer, answer_for_all};
use std::collections::BTreeMap;

type Places = BTreeMap<(u32, Option<Kind>, u32), usize>;

/// How often each refusal was reached, by number, kind of record and column: in all, and in unstructured layers.
fn reached(seeds: std::ops::Range<u64>, of_each: usize) -> [Places; 2] {
    let [mut places, mut unstructured] = [Places::new(), Places::new()];
    for seed in seeds {
        let sheet = from_seed(seed);
        let random = &mut Random::new(!seed);
        let long = sheet.meshes.iter().map(|mesh| mesh.length()).sum::<usize>() > 600;
        for _ in 0..if long { of_each / 6 } else { of_each } {
            let file = damaged(random, &sheet);
            let verdict = verdict(&file);
            let mut reach = |refusal: Refusal| {
                let k = refusal.record as usize;
                let kind = verdict.kinds.get(k.wrapping_sub(1)).copied();
                let place = (refusal.number, kind, refusal.column);
                *places.entry(place).or_default() += 1;
                if kind.is_some() && letters_over(&file, &verdict.kinds, k) == UNSTRUCTURED {
                    *unstructured.entry(place).or_default() += 1;
                }
            };
            let (words, areas) = (verdict.table.len(), verdict.measures.len());
            reach(verdict.outcome(words, areas).refusal);
            reach(verdict.outcome(words.saturating_sub(1), areas).refusal);
            reach(verdict.outcome(words, areas.saturating_sub(1)).refusal);
            reach(answer(&verdict, words, 0).0);
            reach(answer_for_all(&verdict, words, 0).0.refusal);
        }
    }
    [places, unstructured]
}

#[test]
fn every_refusal_is_reached() {
    let [places, unstructured] = reached(0..800, 60);
    let mut numbers = [0; 49];
    for ((number, _, _), times) in &places {
        numbers[*number as usize] += times;
    }
    println!("{numbers:?}");
    for number in (1..=6).chain(8..=19).chain([22, 48]) {
        assert!(numbers[number] > 0, "{number} is not reached");
    }
    assert_eq!(numbers[7], 0);
    let missing: Vec<_> = expected().into_iter().filter(|place| !places.contains_key(place)).collect();
    assert!(missing.is_empty(), "{missing:?}");
    let missing: Vec<_> = expected_of_lines().into_iter().filter(|place| !unstructured.contains_key(place)).collect();
    assert!(missing.is_empty(), "under an H1: {missing:?}");
    let areas = |place: &&(u32, Option<Kind>, u32)| matches!(place.1, Some(Kind::A | Kind::Loop)) || place.0 > 14;
    assert_eq!(unstructured.keys().find(areas), None);
}

/// Where the refusals 10 to 18 can stand, and 5 and 6 about codes.
fn expected() -> Vec<(u32, Option<Kind>, u32)> {
    let mut places = Vec::new();
    let mut add = |number: u32, kind: Kind, columns: &[u32]| {
        places.extend(columns.iter().map(|column| (number, Some(kind), *column)));
    };
    let node_slots: Vec<u32> = (0..9).map(|slot| 26 + 5 * slot).collect();
    let loop_slots: Vec<u32> = (0..12).map(|slot| 10 + 5 * slot).collect();
    let point_columns: Vec<u32> = (0..7).map(|point| 1 + 10 * point).collect();
    add(5, Kind::L, &[30, 40]);
    add(5, Kind::A, &[5]);
    add(6, Kind::L, &[30, 35, 40, 45]);
    add(6, Kind::A, &[5]);
    add(10, Kind::M, &[32, 37, 42, 52]);
    add(10, Kind::H, &[25]);
    add(10, Kind::A, &[29]);
    add(11, Kind::N, &node_slots);
    add(11, Kind::L, &[18, 24, 35, 45]);
    add(11, Kind::Loop, &loop_slots);
    add(12, Kind::N, &node_slots);
    add(12, Kind::L, &[23, 29, 30, 40]);
    add(12, Kind::Coordinates, &point_columns);
    add(13, Kind::N, &node_slots[1..]);
    add(13, Kind::Loop, &loop_slots);
    add(14, Kind::L, &[18, 24]);
    add(15, Kind::Loop, &loop_slots);
    add(16, Kind::Loop, &[1]);
    add(17, Kind::Loop, &loop_slots);
    add(18, Kind::L, &[35, 45]);
    places
}

/// Where the refusals 10 to 14 can stand in an unstructured layer; 5 and 6 about what tells of areas; and others of stage 2.
fn expected_of_lines() -> Vec<(u32, Option<Kind>, u32)> {
    let mut places = Vec::new();
    let mut add = |number: u32, kind: Kind, columns: &[u32]| {
        places.extend(columns.iter().map(|column| (number, Some(kind), *column)));
    };
    let node_slots: Vec<u32> = (0..9).map(|slot| 26 + 5 * slot).collect();
    let point_columns: Vec<u32> = (0..7).map(|point| 1 + 10 * point).collect();
    add(5, Kind::H, &[15]);
    add(5, Kind::L, &[30, 35, 40, 45]);
    add(6, Kind::H, &[3, 10, 15, 20, 31, 36]);
    add(6, Kind::N, &[5, 22, 24]);
    add(6, Kind::N, &node_slots[1..]);
    add(6, Kind::L, &[5, 12, 23, 29, 30, 35, 40, 45, 50]);
    add(8, Kind::H, &[3]);
    add(8, Kind::N, &[3, 7]);
    add(8, Kind::L, &[3, 7]);
    add(10, Kind::H, &[25]);
    add(11, Kind::N, &node_slots[..5]);
    add(11, Kind::L, &[18, 24]);
    add(12, Kind::N, &node_slots[..5]);
    add(12, Kind::L, &[23, 29]);
    add(12, Kind::Coordinates, &point_columns);
    add(13, Kind::N, &node_slots[1..5]);
    add(14, Kind::L, &[18, 24]);
    places
}

//! The lean judge gives the second program's answers.

use bench::files::{plain, worst, File};
use bench::lean::Lean;
use second::compare::{damages, every_code, every_field, every_letter, land_changes, odd_values, one_byte_changes};
use second::compare::{full_totals, outside_sheet, records_totals, unstructured_changes, Compare, Disagreement, NEVER};
use second::judge::verdict;
use second::numbers::{every_text, texts_in_files};
use second::product::Product;

/// Runs one part of the comparison, and tells how often each refusal was reached.
fn agrees(part: fn(&mut Compare) -> Result<(), Disagreement>) -> [u64; 49] {
    let mut compare = Compare::new(&Lean);
    if let Err(disagreement) = part(&mut compare) {
        panic!("{}: {} and {}", disagreement.what, disagreement.ours, disagreement.theirs);
    }
    println!("{} files; judge {:?}", compare.files, compare.reached[0]);
    compare.reached[0]
}

#[test]
fn every_one_byte_change_of_sheet_s() {
    agrees(one_byte_changes);
}

#[test]
fn land_and_every_code() {
    agrees(|compare| land_changes(compare).and_then(|()| every_code(compare)));
}

#[test]
fn unstructured_layers_and_every_letter() {
    agrees(|compare| unstructured_changes(compare).and_then(|()| every_letter(compare)));
}

#[test]
fn totals_of_records() {
    agrees(|compare| records_totals(compare).and_then(|()| full_totals(compare)));
}

#[test]
fn every_field_at_each_value() {
    agrees(|compare| every_field(compare, 1..7));
}

#[test]
fn every_text_of_a_number_field() {
    agrees(|compare| every_text(compare, 300_000).and_then(|()| texts_in_files(compare, false)));
}

#[test]
fn odd_records() {
    agrees(|compare| odd_values(compare, 1, 20_000));
}

#[test]
fn damaged_sheets() {
    let reached = agrees(|compare| damages(compare, 1, 24_000));
    for number in (1..=19).filter(|number| *number != NEVER) {
        assert!(reached[number] > 0, "{number} is not reached");
    }
}

#[test]
fn sheets_from_outside() {
    agrees(|compare| {
        for entry in std::fs::read_dir("../samples").expect("the samples are there") {
            let path = entry.expect("an entry of the folder").path();
            if path.extension().is_some_and(|end| end == "dat") {
                outside_sheet(compare, &std::fs::read(path).expect("a sheet can be read"), 100)?;
            }
        }
        Ok(())
    });
}

/// The measured files are accepted, and the lean judge gives the second program's answers about them.
#[test]
fn measured_files() {
    for File { bytes, kinds } in [plain(14_000), plain(100_000), worst(1)] {
        let verdict = verdict(&bytes);
        let (mut table, mut measures) = (vec![0; verdict.table.len()], vec![0; verdict.measures.len()]);
        let outcome = Lean.judge(&bytes, &mut table, &mut measures);
        assert_eq!(outcome, verdict.outcome(table.len(), measures.len()));
        assert_eq!((outcome.refusal.number, outcome.counts.records as usize), (0, kinds.len()));
        assert_eq!((table, measures), (verdict.table.clone(), verdict.measures.clone()));
        assert!(verdict.kinds.iter().map(|kind| *kind as u8).eq(kinds));
    }
}

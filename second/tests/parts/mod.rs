//! The smaller comparison that the tests make, and wrong programs that it has to find.

use second::compare::{damages, every_code, every_field, every_letter, land_changes, odd_values, positions};
use second::compare::{records_totals, unstructured_changes, walks_astray, Agreed, Compare};
use second::product::Product;

pub fn compared(compare: &mut Compare) -> Agreed {
    every_code(compare)?;
    every_letter(compare)?;
    land_changes(compare)?;
    unstructured_changes(compare)?;
    records_totals(compare)?;
    damages(compare, 1, 800)?;
    odd_values(compare, 1, 2000)?;
    every_field(compare, 0..0)?;
    walks_astray(compare, 1, 200)?;
    positions(compare)
}

/// Each of these wrong programs is found.
pub fn are_found<P: Product>(program: fn(&'static str) -> P, wrongs: &[&'static str]) {
    are_found_by(compared, program, wrongs);
}

/// Each of these wrong programs is found by a part of the comparison.
pub fn are_found_by<P: Product>(part: fn(&mut Compare) -> Agreed, program: fn(&'static str) -> P, wrongs: &[&'static str]) {
    for wrong in wrongs {
        let Err(disagreement) = part(&mut Compare::new(&program(wrong))) else { panic!("{wrong}") };
        println!("{wrong}: {} ours {} theirs {}", disagreement.what, disagreement.ours, disagreement.theirs);
    }
}

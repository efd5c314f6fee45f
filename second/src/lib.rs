//! A second program for the rules (docs/RULES.md): it judges the same files, written another way.

pub mod compare;
pub mod damage;
pub mod due;
pub mod fields;
pub mod generate;
pub mod judge;
pub mod layout;
pub mod numbers;
pub mod piped;
pub mod positions;
pub mod product;
#[cfg(product)]
pub mod proved;
pub mod random;
pub mod records;
pub mod sheet;
pub mod sums;
pub mod walk;

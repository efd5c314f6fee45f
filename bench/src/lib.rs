//! The benchmarks: the files that are measured, and a lean judge to measure the proved library against.

pub mod files;
pub mod lean;

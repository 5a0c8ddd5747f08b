//! Damaged record sheets: each mixture of the faults that are mended, and damage beyond them, with what a text's making says
//! of its answer; and for C the same texts and the second program's answers.

mod beyond;
mod face;
mod faults;
mod lines;
mod texts;

pub use texts::{text, Known, Text, KINDS, MIXTURES};

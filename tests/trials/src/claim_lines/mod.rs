//! Calls for the claim lines of a point from fixed seeds, and the comparison of two readers on them.

mod comparison;
mod questions;
mod tally;

pub use comparison::{compare_parts, part_of_reference, Part, PartDifference};
pub use questions::{listings, points};
pub use tally::PartTally;

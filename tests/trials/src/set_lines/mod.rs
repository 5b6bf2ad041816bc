//! Calls that set a line from fixed seeds, the comparison of two setters on them, and the laws between setter and reader.

mod call;
mod comparison;
mod families;
mod fields;
mod laws;
mod long_records;
mod models;
mod places;
mod registers;
mod several;
mod tally;
mod turns;
mod words;

pub use call::{set_by_reference, SetAfter, SetCall, Setter, BLANK, NEGATIVE, NUMBER};
pub use comparison::{compare_setters, SetDifference};
pub use families::{set_families, SetFamily};
pub use laws::{lines_come_back, set_lines_are_read};
pub use tally::SetTally;

//! Listings, lines and runs from fixed seeds, and the comparison of checkers, of bounds, of claim lines, of setters and of
//! runners on them: where they differ, the smallest listing or call that still shows it, or the first call.

pub mod bounds;
pub mod claim_lines;
pub mod comparison;
pub mod count;
pub mod draft;
pub mod earlier_limits;
pub mod families;
pub mod random;
pub mod runs;
pub mod set_lines;
pub mod shrink;
pub mod tally;

pub use comparison::{compare, of_reference, Difference, Verdict};
pub use count::Count;
pub use families::{all, of_columns, Family};
pub use tally::Tally;

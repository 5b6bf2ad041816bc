//! Listings whose steps are bounded, or nearly so, from fixed seeds, the comparison of two bounds on them, and runs that
//! must keep to the bound.

mod comparison;
mod families;
mod runs;
mod tally;

pub use comparison::{bound_of_reference, compare_bounds, Bound, BoundDifference};
pub use families::bound_families;
pub use runs::{kept_by_runs, Runs};
pub use tally::BoundTally;

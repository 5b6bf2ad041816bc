//! Runs from fixed seeds, and the comparison of runners on them: where one differs from the reference, the smallest
//! call that still shows it.

mod call;
mod comparison;
mod dead_stretches;
mod families;
mod long_records;
mod quotients;
mod remainders;
mod resume;
mod shrink;
mod starts;
mod tally;
mod turns;
mod watch;

pub use call::{After, Call, Runner};
pub use comparison::{compare_runs, RunDifference};
pub(crate) use resume::change;
pub(crate) use starts::{bytes, meeting_at, Start};

pub use families::{all_runs, RunFamily, Trial};
pub use tally::RunTally;
pub use watch::watched;

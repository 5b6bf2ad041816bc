//! The first call on which a runner that is wrong on purpose differs from the reference.

use trials::runs::{all_runs, compare_runs, After, Call, RunDifference};

/// The first difference between the reference and a wrong runner, in the family whose name has this part.
#[track_caller]
pub fn found(part: &str, wrong: &dyn Fn(&Call) -> After) -> Box<RunDifference> {
    let family = all_runs().into_iter().find(|family| family.name.contains(part)).expect("the family exists");
    let difference = compare_runs(&family, &[("wrong", wrong)]).expect_err("the planted difference is found");
    println!("{difference}");
    difference
}

pub fn lines_of(difference: &RunDifference) -> usize {
    difference.call.listing.len() / 40
}

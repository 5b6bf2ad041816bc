//! The first listing on which a checker that is wrong on purpose differs from the reference.

use reference::Answer;
use trials::{all, compare, of_columns, of_reference, Difference, Verdict};

/// The first difference between the reference and a wrong checker, in the family whose name has this part.
pub fn found(part: &str, wrong: &dyn Fn(&[u8]) -> Answer) -> Box<Difference> {
    let wrong = |listing: &[u8]| {
        let answer = wrong(listing);
        Verdict { answer, line: reference::printed(&answer) }
    };
    let mut families = all().into_iter().chain(of_columns());
    let family = families.find(|family| family.name.contains(part)).expect("the family exists");
    let difference = compare(&family, &of_reference, &wrong).expect_err("the planted difference is found");
    println!("{difference}");
    difference
}

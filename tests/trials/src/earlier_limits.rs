//! What passed within the earlier limits of scales and bounds passes within today's, with as many points.

use crate::comparison::{Checker, Difference, Verdict};
use crate::families::Family;
use crate::shrink::shrink;
use reference::{check_within, printed, Limits};

/// The reference's answer within the earlier limits.
pub fn of_earlier(listing: &[u8]) -> Verdict {
    let answer = check_within(Limits::EARLIER, listing);
    Verdict { answer, line: printed(&answer) }
}

/// How many listings of the family pass within the earlier limits, or the first of them that the checker answers
/// otherwise.
pub fn pass_still(family: &Family, checker: Checker) -> Result<u64, Box<Difference>> {
    let passed = |listing: &[u8]| Some(of_earlier(listing)).filter(|verdict| verdict.answer.number == 0);
    let differs = |listing: &[u8]| passed(listing).is_some_and(|verdict| verdict != checker(listing));
    let mut passes = 0;
    for batch in 0..family.batches {
        for listing in family.batch(batch) {
            let Some(verdict) = passed(&listing) else { continue };
            if verdict != checker(&listing) {
                let listing = shrink(&listing, &differs);
                let (left, right) = (of_earlier(&listing), checker(&listing));
                return Err(Box::new(Difference { family: family.name, batch, listing, left, right }));
            }
            passes += 1;
        }
    }
    Ok(passes)
}

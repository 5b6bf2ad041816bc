//! A checker by a rule of its own: the right rule makes no difference, and a wrong one is found on a small listing.

use crate::found::found;
use lines::LINE;
use reference::{check, Answer};
use trials::all;

/// The numbers of the reference and of a wrong checker, on a listing of the family that has at most so many lines.
#[track_caller]
pub fn numbers_found(part: &str, few_lines: usize, wrong: &dyn Fn(&[u8]) -> Answer) -> (u64, u64) {
    let difference = found(part, wrong);
    assert!(difference.listing.len() <= few_lines * LINE, "{difference}");
    (difference.left.answer.number, difference.right.answer.number)
}

/// The checker differs from the reference on no listing of a share of all families.
pub fn makes_no_difference(checker: &dyn Fn(&[u8]) -> Answer) {
    for family in all().into_iter().map(|family| family.thinned(10)) {
        for listing in (0..family.batches).flat_map(|batch| family.batch(batch)) {
            assert_eq!(check(&listing), checker(&listing));
        }
    }
}

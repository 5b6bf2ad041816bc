//! Answers that tests of listings in the short notation expect.

use lines::listing;
use reference::{check, Answer};

#[track_caller]
pub fn passes(notation: &str, points: u64) {
    assert_eq!(check(&listing(notation)), Answer { number: 0, place: 0, second: 0, points });
}

#[track_caller]
pub fn claim_fails(notation: &str, place: u64, second: u64) {
    assert_eq!(check(&listing(notation)), Answer { number: 14, place, second, points: 0 });
}

#[track_caller]
pub fn fails(notation: &str, number: u64, place: u64) {
    assert_eq!(check(&listing(notation)), Answer { number, place, second: 0, points: 0 });
}

//! How often each answer of the call that sets a line came up.

use super::call::{SetAfter, SetCall};
use crate::tally::{Answers, Counts};
use reference::refusals::ONE_REGISTER_TWICE;

/// Lines set, the refusals 3 to 5 and 19 where the listing has the line, the same where 18 holds too, then 18 for line 0, for a
/// line that no listing has, and for a listing that ends too soon.
#[derive(Clone, Debug)]
pub struct SetAnswers;

impl Answers for SetAnswers {
    const NAMES: &'static [&'static str] =
        &["set", "3", "4", "5", "19", "3, 18", "4, 18", "5, 18", "19, 18", "18 zero", "18 past", "18 ends"];
}

const MOST_LINES: u64 = 1638;

pub type SetTally = Counts<SetAnswers>;

impl SetTally {
    pub fn count(&mut self, call: &SetCall, after: &SetAfter) {
        self.count_at(column(call, after));
    }
}

fn column(call: &SetCall, after: &SetAfter) -> usize {
    let (zero, past) = (call.line == 0, call.line > MOST_LINES);
    let there = !past && call.span().is_some();
    match after.number {
        0 => 0,
        number @ 3..=5 if there => number as usize - 2,
        ONE_REGISTER_TWICE if there => 4,
        number @ 3..=5 => number as usize + 2,
        ONE_REGISTER_TWICE => 8,
        18 if zero => 9,
        18 if past => 10,
        18 => 11,
        other => panic!("no call that sets a line is turned back by {other}"),
    }
}

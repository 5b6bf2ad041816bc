//! How often each answer of the call for a bound came up.

use super::comparison::Bound;
use crate::tally::{Answers, Counts};
use reference::read;
use reference::refusals::{ONE_REGISTER_TWICE, WAY_BACK_NOT_COVERED};

/// A bound where nothing goes back, a bound of rounds, then the refusals 1 to 14, 19 and 20.
#[derive(Clone, Debug)]
pub struct BoundAnswers;

impl Answers for BoundAnswers {
    const NAMES: &'static [&'static str] =
        &["points", "rounds", "1", "2", "3", "4", "5", "6", "7", "8", "9", "10", "11", "12", "13", "14", "19", "20"];
}

const ROUNDS: usize = 1;

pub type BoundTally = Counts<BoundAnswers>;

impl BoundTally {
    pub fn count(&mut self, listing: &[u8], bound: &Bound) {
        let last = BoundAnswers::NAMES.len() - 1;
        self.count_at(match bound.number {
            0 => usize::from(goes_back(listing)),
            number @ 1..=14 => number as usize + ROUNDS,
            ONE_REGISTER_TWICE => last - 1,
            WAY_BACK_NOT_COVERED => last,
            other => panic!("no call for a bound is turned back by {other}"),
        });
    }
}

/// Whether a listing that can be read has a way back.
pub(super) fn goes_back(listing: &[u8]) -> bool {
    let points = read(listing).expect("it has a bound").points;
    points.iter().enumerate().any(|(at, point)| point.instruction.target().is_some_and(|target| target <= at))
}

//! Calls that set a TURN line.

use super::call::{SetCall, NUMBER};
use super::models::TURN;
use super::places::strange_line;
use super::{fields, words};
use crate::random::Random;

const REGISTER: usize = 0;

/// Right with any register, or with a field, the line or the word changed.
pub fn turn(random: &mut Random, _batch: u64) -> Vec<SetCall> {
    let mut call = TURN.call(random);
    (call.kinds[REGISTER], call.numbers[REGISTER]) = (NUMBER, random.below(16) as u64);
    match random.below(6) {
        0 => call.numbers[REGISTER] = random.pick(&[15, 16, 17, 18, 9_999, 10_000, u64::MAX]),
        1 => {
            let field = random.below(call.kinds.len());
            fields::change(random, &mut call, field);
        }
        2 => words::change(random, &mut call.word),
        3 => call.line = strange_line(random, call.listing.len()),
        _ => {}
    }
    vec![call]
}

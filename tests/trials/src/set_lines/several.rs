//! Calls with several faults at once, so that the order of the tests shows.

use super::call::SetCall;
use super::models::some_model;
use super::places::strange_line;
use super::{fields, words};
use crate::random::Random;

/// Any of: a wrong word, one changed field, another, and a line that is not there.
pub fn several(random: &mut Random, _batch: u64) -> Vec<SetCall> {
    let mut call = some_model(random).call(random);
    if random.percent(25) {
        words::change(random, &mut call.word);
    }
    for _ in 0..2 {
        if random.percent(50) {
            let field = random.below(call.kinds.len());
            fields::change(random, &mut call, field);
        }
    }
    if random.percent(70) {
        call.line = strange_line(random, call.listing.len());
    }
    vec![call]
}

//! Calls with one field or a few that are not as the word wants them.

use super::call::{SetCall, BLANK, NEGATIVE, NUMBER};
use super::models::{numbers, random_number, some_model, DRAWN, MODELS};
use crate::random::Random;

const FIELDS: usize = 6;
/// Bytes that are no kind.
const NO_KINDS: [u8; 6] = [3, 4, 16, 128, 254, 255];

pub const PLACES: u64 = (MODELS.len() * FIELDS) as u64;

/// Right in every field.
pub fn right(random: &mut Random, _batch: u64) -> Vec<SetCall> {
    vec![some_model(random).call(random)]
}

/// One field of one model: every number with and without a minus, one more of each, a blank, and no kind.
pub fn every_number(random: &mut Random, batch: u64) -> Vec<SetCall> {
    let (model, field) = (MODELS[row(batch as usize / FIELDS)], batch as usize % FIELDS);
    let mut changes: Vec<(u8, u64)> =
        numbers().into_iter().flat_map(|number| [(NUMBER, number), (NEGATIVE, number)]).collect();
    changes.extend([NUMBER, NEGATIVE, BLANK].map(|kind| (kind, random_number(random))));
    changes.extend(NO_KINDS.iter().flat_map(|kind| [0, 1, u64::MAX].map(|number| (*kind, number))));
    let changed = |(kind, number)| {
        let mut call = model.call(random);
        (call.kinds[field], call.numbers[field]) = (kind, number);
        call
    };
    changes.into_iter().map(changed).collect()
}

/// The models one after the other, twice: those that calls draw from, and then the others.
fn row(nth: usize) -> usize {
    if nth < 2 * DRAWN {
        nth % DRAWN
    } else {
        DRAWN + (nth - 2 * DRAWN) % (MODELS.len() - DRAWN)
    }
}

/// Two or three fields changed, so that 4 and 5 meet in either order.
pub fn some_fields(random: &mut Random, _batch: u64) -> Vec<SetCall> {
    let mut call = some_model(random).call(random);
    for _ in 0..2 + random.below(2) {
        let field = random.below(FIELDS);
        change(random, &mut call, field);
    }
    vec![call]
}

/// The fields of one model under the word of another.
pub fn other_word(random: &mut Random, _batch: u64) -> Vec<SetCall> {
    let mut call = some_model(random).call(random);
    call.word = some_model(random).word.to_vec();
    vec![call]
}

/// Makes a field anything; a number that is wanted stays one as often as not.
pub fn change(random: &mut Random, call: &mut SetCall, field: usize) {
    let wanted = call.kinds[field] != BLANK;
    call.kinds[field] = match random.below(10) {
        0 => BLANK,
        1 => NEGATIVE,
        2 => random.pick(&NO_KINDS),
        3 => NUMBER,
        _ if wanted => NUMBER,
        _ => BLANK,
    };
    call.numbers[field] = match random.below(4) {
        0 => random_number(random),
        1 => random.below(20) as u64,
        _ => random.pick(&numbers()),
    };
}

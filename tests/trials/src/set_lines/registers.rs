//! Calls of DIVM whose quotient and remainder are in one register, alone and beside other faults.

use super::call::{SetCall, BLANK, NEGATIVE, NUMBER};
use super::fields::change;
use super::models::{Model, MODELS};
use super::places::strange_line;
use crate::random::Random;

const QUOTIENT: usize = 0;
const REMAINDER: usize = 2;

/// Numbers that are no register.
const NO_REGISTERS: [u64; 6] = [16, 17, 18, 9_999, 10_000, u64::MAX];

/// Every register twice, and what is no register twice.
pub fn one_twice(random: &mut Random, _batch: u64) -> Vec<SetCall> {
    let registers = (0..16).map(|register| (NUMBER, register));
    let none = NO_REGISTERS.map(|number| (NUMBER, number));
    let shapes = [(BLANK, 3), (NEGATIVE, 3), (NEGATIVE, 0), (255, 3)];
    registers.chain(none).chain(shapes).map(|(kind, number)| twice(random, kind, number)).collect()
}

/// The same in both fields; as often as not something else is wrong too.
fn twice(random: &mut Random, kind: u8, number: u64) -> SetCall {
    let divisions: Vec<Model> = MODELS.into_iter().filter(|model| model.word == b"DIVM").collect();
    let mut call = random.pick(&divisions).call(random);
    for field in [QUOTIENT, REMAINDER] {
        (call.kinds[field], call.numbers[field]) = (kind, number);
    }
    if random.percent(40) {
        call.line = strange_line(random, call.listing.len());
    }
    if random.percent(20) {
        let field = random.below(call.kinds.len());
        change(random, &mut call, field);
    }
    call
}

//! Runs that divide with remainder: values at 0, 1 and the greatest, in every way that dividend and divisor can meet the
//! registers written, and states that meet the claims of ranges. They are halted after a division and taken up again.

use super::families::{trial, Trial};
use super::quotients::{any_divisors, around, before_stop, listing, start, Division, Values};
use crate::families::remainders::{self, dividend};
use crate::random::Random;
use reference::{Instruction, Operand, RESULTS_SIZE, TRAYS_SIZE};

/// Registers of each division: for the quotient, the remainder, and a dividend and a divisor that are neither.
const REGISTERS_EACH: usize = 4;
const MOST_DIVISIONS: usize = 4;

/// Up to four divisions, each with registers of its own, and STOP. A divisor that is 0 misses its claim.
pub fn of_values(random: &mut Random) -> Vec<Trial> {
    let mut values = any_divisors(random);
    let count = 1 + random.below(MOST_DIVISIONS);
    let divisions: Vec<Division> = (0..count).map(|at| division(random, at, &mut values)).collect();
    let text = listing(random, &divisions).text();
    if let (Some(Operand::Variable(o @ 0..=15)), true) = (divisions[0].instruction.divisor(), random.percent(3)) {
        values[o] = 0;
    }
    let start = start(random, &values);
    let trial = trial(random, &text, start, 1 + count);
    vec![halted(random, trial, count)]
}

/// Often with a budget that ends after one of so many divisions.
fn halted(random: &mut Random, mut trial: Trial, divisions: usize) -> Trial {
    if random.percent(70) {
        trial.call.budget = 1 + random.below(divisions) as u32;
    }
    trial
}

/// The division at a point, with its registers filled; the first may divide the sizes of the tables.
fn division(random: &mut Random, at: usize, values: &mut Values) -> Division {
    let [q, r, free, other] = std::array::from_fn(|place| REGISTERS_EACH * at + place);
    let i = random.pick(&[q, r, free]);
    let sized = at == 0 && random.percent(10);
    let (i, by) = if sized { (TRAYS_SIZE, RESULTS_SIZE) } else { (i, random.pick(&[q, r, i, other])) };
    if !sized && i != by {
        values[i] = dividend(random, values[by]);
    }
    let number = random.percent(30);
    let o = if number { Operand::Number(values[by]) } else { Operand::Variable(by) };
    let mut claims = if number { vec![] } else { around(random, by, values[by], 1) };
    claims.extend(around(random, i, values[i], 0));
    Division { instruction: Instruction::DivMod { q, i, r, o }, written: vec![q, r], claims }
}

/// A division that passes, from values in the ranges that its point claims; it stands right before STOP.
pub fn of_ranges(random: &mut Random) -> Vec<Trial> {
    let make = random.pick(&[remainders::of_values, remainders::of_ranges, remainders::of_ranges]);
    let text = make(random).swap_remove(0);
    let trial = before_stop(random, &text, 2);
    trial.map(|trial| halted(random, trial, 1)).into_iter().collect()
}

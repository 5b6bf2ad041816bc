//! What happens between two runs: the state stands as it was handed back, and the bytes of the tables may change.

use super::call::{After, Call};
use super::starts::bytes;
use super::watch::ends_within;
use crate::random::Random;

/// A run with the greatest budget is tried only where it ends within so many steps.
const SOON: u32 = 300;

/// A budget for the call: nothing, one step, a few, or as much as may be where the run stops soon.
pub fn budget(random: &mut Random, call: &Call) -> u32 {
    let few = random.below(60) as u32;
    match random.below(12) {
        0 => 0,
        1 | 2 => 1,
        3 | 4 => few / 6,
        5..=8 => few,
        9 => few * 20,
        _ => {
            let most = u32::MAX - random.pick(&[0, 0, 1]);
            if ends_within(&Call { budget: most, ..call.clone() }, SOON) {
                most
            } else {
                few
            }
        }
    }
}

/// The next call after a run that was not refused.
pub fn resumed(random: &mut Random, call: Call, after: After) -> Call {
    let mut next = Call { state: after.run.state, results: after.results, ..call };
    if random.percent(70) {
        change(random, &mut next.trays);
        change(random, &mut next.results);
    }
    next.budget = budget(random, &next);
    next
}

/// Some bytes, or all.
pub fn change(random: &mut Random, table: &mut Vec<u8>) {
    if table.is_empty() {
        return;
    }
    if random.percent(50) {
        *table = bytes(random, table.len());
        return;
    }
    for _ in 0..1 + random.below(4) {
        let at = random.below(table.len());
        table[at] = random.draw() as u8;
    }
}

//! Runs of routines under a TURN line: from any point, and from point 0 with budgets at and beside the bound.

use super::families::{from_any_state, from_several_points, trial, Trial};
use super::starts::meeting_at;
use crate::families::{turn_lines, ways_back};
use crate::random::Random;
use reference::{read, step_bound};

/// No budget is above this but where the routine stops soon.
const MOST_STEPS: u64 = 2_000;

pub fn from_any_point(random: &mut Random) -> Vec<Trial> {
    let text = ways_back::loops(random).swap_remove(0);
    from_several_points(random, &text)
}

/// The bound as budget, one less, a round less, or a part of it with runs after it.
pub fn with_bound(random: &mut Random) -> Vec<Trial> {
    let make = random.pick(&[ways_back::loops, ways_back::nearly_all_steps, ways_back::nothing_back]);
    let text = make(random).swap_remove(0);
    let bound = step_bound(&text).expect("these are bounded");
    let listing = read(&text).expect("it has a bound");
    let Some(start) = meeting_at(random, &listing, 0) else { return vec![] };
    let runs = 1 + random.below(3);
    let mut trial = trial(random, &text, start, runs);
    let round = listing.points.len() as u64;
    let budget = random.pick(&[bound, bound, bound - 1, bound - round, bound / 2, bound + 1]);
    if budget <= MOST_STEPS {
        trial.call.budget = budget as u32;
    }
    vec![trial]
}

pub fn turned_back(random: &mut Random) -> Vec<Trial> {
    let makers = [turn_lines::any_line, turn_lines::fields, turn_lines::nudged, turn_lines::one_register_twice];
    let make = random.pick(&makers);
    from_any_state(random, make)
}

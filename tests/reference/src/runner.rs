//! The runner: a checked listing, a state that meets its claims, and a budget of steps. Refusals 15 to 17.

use crate::checker::passed;
use crate::limits::Limits;
use crate::line::{Instruction, SIZE_LIMIT};
use crate::listing::{Listing, Refusal};
use crate::machine::{meets, step, State, Step};
use crate::refusals::{CLAIMS_NOT_MET, NO_SUCH_POINT, TABLE_TOO_LONG};

#[derive(Clone, Copy, Debug, PartialEq, Eq)]
pub enum Outcome {
    Stopped,
    Paused,
    Refused(Refusal),
}

#[derive(Clone, Copy, Debug, PartialEq, Eq)]
pub struct Run {
    pub outcome: Outcome,
    pub state: State,
    pub steps: u64,
}

/// Runs at most `budget` steps. After a refusal state and results are as they were, and no step was made.
pub fn run(listing: &[u8], state: State, trays: &[u8], results: &mut [u8], budget: u32) -> Run {
    run_within(Limits::TODAY, listing, state, trays, results, budget)
}

pub fn run_within(limits: Limits, listing: &[u8], state: State, trays: &[u8], results: &mut [u8], budget: u32) -> Run {
    match runnable(limits, listing, &state, trays, results) {
        Ok(listing) => steps(&listing, state, trays, results, u64::from(budget)),
        Err(refusal) => Run { outcome: Outcome::Refused(refusal), state, steps: 0 },
    }
}

/// Refusals 1 to 17.
fn runnable(limits: Limits, listing: &[u8], state: &State, trays: &[u8], results: &[u8]) -> Result<Listing, Refusal> {
    let listing = passed(limits, listing)?;
    if [trays, results].iter().any(|table| table.len() as i128 > SIZE_LIMIT) {
        return Err(Refusal::new(TABLE_TOO_LONG, 0));
    }
    if state.point >= listing.points.len() as u64 {
        return Err(Refusal::new(NO_SUCH_POINT, 0));
    }
    if !meets(&listing, state, trays, results) {
        return Err(Refusal::new(CLAIMS_NOT_MET, 0));
    }
    Ok(listing)
}

fn steps(listing: &Listing, mut state: State, trays: &[u8], results: &mut [u8], budget: u64) -> Run {
    let mut made = 0;
    loop {
        if listing.points[state.point as usize].instruction == Instruction::Stop {
            return Run { outcome: Outcome::Stopped, state, steps: made };
        }
        if made == budget {
            return Run { outcome: Outcome::Paused, state, steps: made };
        }
        match step(listing, &state, trays, results) {
            Step::Moved(next) => state = next,
            other => panic!("a passed listing came to {other:?} at point {}", state.point),
        }
        made += 1;
    }
}

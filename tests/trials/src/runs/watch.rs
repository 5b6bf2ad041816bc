//! The machine's steps, watched one by one.

use super::call::{After, Call};
use reference::{check, meets, read, step, Instruction, Listing, Outcome, State, Step};

/// The reference's answer. Where the run is not refused, its steps are made one by one as well: each state on the
/// way meets the claims of its point, none of them leads to the error state, and they come to what the run hands back.
pub fn watched(call: &Call) -> Result<After, String> {
    if check(&call.listing).number != 0 {
        return Ok(call.by_reference());
    }
    let listing = read(&call.listing).map_err(|refusal| format!("a passed listing is refused by {refusal:?}"))?;
    let allowed = meets(&listing, &call.state, &call.trays, &call.results);
    let walked = if allowed { Some(walk(&listing, call)?) } else { None };
    let after = call.by_reference();
    let refused = matches!(after.run.outcome, Outcome::Refused(_));
    match walked {
        None if refused => Ok(after),
        Some(walked) if walked.agrees(&listing, call, &after) => Ok(after),
        _ => Err(format!("the reference's run is not its steps: {:?}", after.run)),
    }
}

/// Where the steps have led.
struct Walked {
    state: State,
    results: Vec<u8>,
    steps: u64,
}

impl Walked {
    fn agrees(&self, listing: &Listing, call: &Call, after: &After) -> bool {
        let run = &after.run;
        let stands = listing.points[self.state.point as usize].instruction == Instruction::Stop;
        let ended = match run.outcome {
            Outcome::Stopped => stands,
            Outcome::Paused => !stands && run.steps == u64::from(call.budget),
            Outcome::Refused(_) => false,
        };
        ended && run.steps == self.steps && run.state == self.state && after.results == self.results
    }
}

fn walk(listing: &Listing, call: &Call) -> Result<Walked, String> {
    let mut walked = Walked { state: call.state, results: call.results.clone(), steps: 0 };
    while walked.steps < u64::from(call.budget) {
        match step(listing, &walked.state, &call.trays, &mut walked.results) {
            Step::Moved(next) => walked.state = next,
            Step::Stopped => break,
            Step::Error => return Err(format!("the error state after {} steps, {:?}", walked.steps, walked.state)),
        }
        walked.steps += 1;
        if !meets(listing, &walked.state, &call.trays, &walked.results) {
            return Err(format!("claims not met after {} steps, {:?}", walked.steps, walked.state));
        }
    }
    Ok(walked)
}

/// Whether the machine comes to STOP, or the budget to its end, within so many steps; a call that is refused does.
pub fn ends_within(call: &Call, most: u32) -> bool {
    if check(&call.listing).number != 0 {
        return true;
    }
    let Ok(listing) = read(&call.listing) else { return true };
    if !meets(&listing, &call.state, &call.trays, &call.results) {
        return true;
    }
    let (mut state, mut results) = (call.state, call.results.clone());
    for _ in 0..most.min(call.budget) {
        match step(&listing, &state, &call.trays, &mut results) {
            Step::Moved(next) => state = next,
            _ => return true,
        }
    }
    most >= call.budget || step(&listing, &state, &call.trays, &mut results) == Step::Stopped
}

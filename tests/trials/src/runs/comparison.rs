//! Runners beside the reference on every run of a family.

use super::call::{After, Call, Runner};
use super::families::{RunFamily, Trial};
use super::resume::resumed;
use super::shrink::shrink_call;
use super::tally::RunTally;
use super::watch::{ends_within, watched};
use crate::random::Random;
use reference::Outcome;
use std::fmt;

/// A smaller call is tried only where the reference's run ends within so many steps.
const STEPS_WHILE_SHRINKING: u32 = 20_000;

/// A call on which a runner differs from the reference, or the reference breaks its word, made as small as it could be.
#[derive(Debug)]
pub struct RunDifference {
    pub family: &'static str,
    pub batch: u64,
    pub found: Call,
    pub call: Call,
    pub what: What,
}

#[derive(Debug)]
pub enum What {
    /// The reference's own steps break a claim or come to the error state.
    Broken(String),
    Differs {
        runner: &'static str,
        reference: Box<After>,
        other: Box<After>,
    },
}

impl fmt::Display for RunDifference {
    fn fmt(&self, out: &mut fmt::Formatter) -> fmt::Result {
        writeln!(out, "a difference in '{}', batch {}:", self.family, self.batch)?;
        write!(out, "{}made smaller:\n{}", self.found, self.call)?;
        match &self.what {
            What::Broken(why) => writeln!(out, "  the reference: {why}"),
            What::Differs { runner, reference, other } => {
                writeln!(out, "  the reference: {}", reference.shown(&self.call))?;
                writeln!(out, "  {runner}: {}", other.shown(&self.call))
            }
        }
    }
}

/// Compares the runners with the reference on every run of the family.
pub fn compare_runs(family: &RunFamily, runners: &[Runner]) -> Result<RunTally, Box<RunDifference>> {
    let mut tally = RunTally::default();
    for batch in 0..family.batches {
        let mut random = family.random(batch);
        for trial in family.batch(&mut random) {
            follow(&mut random, trial, runners, &mut tally).map_err(|found| {
                let (call, what) = smallest(&found, runners);
                Box::new(RunDifference { family: family.name, batch, found: *found, call, what })
            })?;
        }
    }
    Ok(tally)
}

/// The runs of one trial, one after the other. The error is the call on which there is a difference.
fn follow(random: &mut Random, trial: Trial, runners: &[Runner], tally: &mut RunTally) -> Result<(), Box<Call>> {
    let mut call = trial.call;
    for _ in 0..trial.runs {
        let after = match watched(&call) {
            Ok(after) if runners.iter().all(|(_, run)| run(&call) == after) => after,
            _ => return Err(Box::new(call)),
        };
        tally.count(&after.run);
        if matches!(after.run.outcome, Outcome::Refused(_)) {
            return Ok(());
        }
        call = resumed(random, call, after);
    }
    Ok(())
}

/// What is wrong with the call, if anything.
fn wrong(call: &Call, runners: &[Runner]) -> Option<What> {
    let reference = match watched(call) {
        Ok(after) => after,
        Err(why) => return Some(What::Broken(why)),
    };
    for (runner, run) in runners {
        let other = run(call);
        if other != reference {
            return Some(What::Differs { runner, reference: Box::new(reference), other: Box::new(other) });
        }
    }
    None
}

fn smallest(found: &Call, runners: &[Runner]) -> (Call, What) {
    let call =
        shrink_call(found, &|smaller| ends_within(smaller, STEPS_WHILE_SHRINKING) && wrong(smaller, runners).is_some());
    let what = wrong(&call, runners).expect("a smaller call is taken only where it is still wrong");
    (call, what)
}

//! How often each outcome of a run came up.

use reference::refusals::ONE_REGISTER_TWICE;
use reference::{Outcome, Run};

/// Stopped, paused, and refused by 1 to 17 and by 19.
const OUTCOMES: usize = 20;
const FIRST_REFUSAL: usize = 2;
const LAST: usize = OUTCOMES - 1;
/// Each outcome must come up at least once in this many runs.
const RAREST: u64 = 1000;

#[derive(Clone, Debug, Default)]
pub struct RunTally {
    counts: [u64; OUTCOMES],
    pub steps: u64,
}

fn name(column: usize) -> String {
    match column {
        0 => "stopped".to_string(),
        1 => "paused".to_string(),
        LAST => format!("{ONE_REGISTER_TWICE}"),
        other => format!("{}", other + 1 - FIRST_REFUSAL),
    }
}

impl RunTally {
    pub fn count(&mut self, run: &Run) {
        let column = match run.outcome {
            Outcome::Stopped => 0,
            Outcome::Paused => 1,
            Outcome::Refused(refusal) if refusal.number == ONE_REGISTER_TWICE => LAST,
            Outcome::Refused(refusal) => refusal.number as usize - 1 + FIRST_REFUSAL,
        };
        self.counts[column] += 1;
        self.steps += run.steps;
    }

    pub fn add(&mut self, other: &RunTally) {
        self.counts.iter_mut().zip(other.counts).for_each(|(count, more)| *count += more);
        self.steps += other.steps;
    }

    pub fn total(&self) -> u64 {
        self.counts.iter().sum()
    }

    /// The outcomes that came up too seldom.
    pub fn rare(&self) -> Vec<String> {
        (0..OUTCOMES).filter(|&column| self.counts[column] * RAREST < self.total()).map(name).collect()
    }

    /// The names of the outcomes, in the columns of `row`.
    pub fn heading() -> String {
        (0..OUTCOMES).map(|column| format!("{:>8}", name(column))).collect()
    }

    pub fn row(&self) -> String {
        self.counts.iter().map(|count| format!("{count:>8}")).collect()
    }
}

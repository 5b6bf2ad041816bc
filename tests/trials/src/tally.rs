//! How often each answer came up.

use reference::refusals::ONE_REGISTER_TWICE;
use reference::Answer;
use std::marker::PhantomData;

/// Each answer must come up at least once in this many calls.
const RAREST: u64 = 1000;

/// The answers that are counted.
pub trait Answers {
    const NAMES: &'static [&'static str];
}

/// A count for each answer.
#[derive(Clone, Debug)]
pub struct Counts<A> {
    counts: Vec<u64>,
    answers: PhantomData<A>,
}

impl<A: Answers> Default for Counts<A> {
    fn default() -> Counts<A> {
        Counts { counts: vec![0; A::NAMES.len()], answers: PhantomData }
    }
}

impl<A: Answers> Counts<A> {
    pub(crate) fn count_at(&mut self, answer: usize) {
        self.counts[answer] += 1;
    }

    pub fn add(&mut self, other: &Counts<A>) {
        self.counts.iter_mut().zip(&other.counts).for_each(|(count, more)| *count += more);
    }

    pub fn total(&self) -> u64 {
        self.counts.iter().sum()
    }

    /// The answers that came up too seldom.
    pub fn rare(&self) -> Vec<&'static str> {
        let total = self.total();
        let seldom = |(_, count): &(&&str, &u64)| **count * RAREST < total;
        A::NAMES.iter().zip(&self.counts).filter(seldom).map(|(name, _)| *name).collect()
    }

    /// The names of the answers, in the columns of `row`.
    pub fn heading() -> String {
        A::NAMES.iter().map(|name| format!("{name:>8}")).collect()
    }

    pub fn row(&self) -> String {
        self.counts.iter().map(|count| format!("{count:>8}")).collect()
    }
}

/// A listing that passes, and the refusals 1 to 14 and 19.
#[derive(Clone, Debug)]
pub struct CheckerAnswers;

impl Answers for CheckerAnswers {
    const NAMES: &'static [&'static str] =
        &["PASS", "1", "2", "3", "4", "5", "6", "7", "8", "9", "10", "11", "12", "13", "14", "19"];
}

pub type Tally = Counts<CheckerAnswers>;

impl Tally {
    pub fn count(&mut self, answer: &Answer) {
        let refused = answer.number as usize;
        self.count_at(if answer.number == ONE_REGISTER_TWICE { CheckerAnswers::NAMES.len() - 1 } else { refused });
    }
}

//! Runs from point 0 that must be stopped when their bound is spent: from states at the ends of what is claimed there, at
//! once and in pieces, with other bytes in the tables for each piece.

use crate::random::Random;
use crate::runs::{bytes, change, meeting_at, Start};
use reference::{meets, read, step, Known, Listing, State, Step, REGISTERS, RESULTS_SIZE, TRAYS_SIZE};
use std::fmt;

/// Where the bound is above this, a run may be broken off after so many steps.
const MOST_STEPS: u64 = 2_000;
/// Tables at their greatest size are rare, since they take long to fill.
const LARGE_TABLES: usize = 3;

/// What was tried.
#[derive(Clone, Debug, Default, PartialEq, Eq)]
pub struct Runs {
    pub stopped: u64,
    /// Of these, those halted and taken up again.
    pub in_pieces: u64,
    /// Of these, those that needed more steps than one round less than the bound has.
    pub near: u64,
    /// Of these, those with two tables of no bytes.
    pub empty_tables: u64,
    /// Broken off, the bound being too large to wait for.
    pub broken_off: u64,
    pub steps: u64,
}

impl Runs {
    pub fn add(&mut self, other: &Runs) {
        self.stopped += other.stopped;
        self.in_pieces += other.in_pieces;
        self.near += other.near;
        self.empty_tables += other.empty_tables;
        self.broken_off += other.broken_off;
        self.steps += other.steps;
    }
}

impl fmt::Display for Runs {
    fn fmt(&self, out: &mut fmt::Formatter) -> fmt::Result {
        let Runs { stopped, in_pieces, near, empty_tables, broken_off, steps } = self;
        write!(
            out,
            "{stopped} runs stopped within their bound, {in_pieces} of them in pieces, {near} in its last round, "
        )?;
        write!(out, "{empty_tables} over empty tables; {broken_off} broken off; {steps} steps")
    }
}

/// Runs a listing that has a bound, from several states. The error says what a run did.
pub fn kept_by_runs(random: &mut Random, listing: &[u8], bound: u64, runs: &mut Runs) -> Result<(), String> {
    let listing = read(listing).map_err(|refusal| format!("it has a bound and is refused by {refusal:?}"))?;
    for start in starts(random, &listing) {
        let whole = follow(random, &listing, start.clone(), bound, false)?;
        runs.count(&listing, &start, bound, whole, false);
        let pieces = follow(random, &listing, start.clone(), bound, true)?;
        runs.count(&listing, &start, bound, pieces, true);
    }
    Ok(())
}

impl Runs {
    /// Counts a run that stopped after so many steps, or that was broken off.
    fn count(&mut self, listing: &Listing, start: &Start, bound: u64, steps: Option<u64>, in_pieces: bool) {
        let Some(steps) = steps else { return self.broken_off += 1 };
        self.stopped += 1;
        self.steps += steps;
        self.in_pieces += u64::from(in_pieces);
        let points = listing.points.len() as u64;
        self.near += u64::from(bound > points && steps > bound - points);
        self.empty_tables += u64::from(start.trays.is_empty() && start.results.is_empty());
    }
}

/// All registers at their least, all at their greatest, each at one of the two, and any; the sizes mostly at their least.
fn starts(random: &mut Random, listing: &Listing) -> Vec<Start> {
    let known = Known::at(&listing.points[0]);
    let mut starts = vec![at_ends(random, &known, 0), at_ends(random, &known, 100), at_ends(random, &known, 50)];
    starts.retain(|start| meets(listing, &start.state, &start.trays, &start.results));
    if starts.len() < 3 || random.percent(25) {
        starts.extend(meeting_at(random, listing, 0));
    }
    starts
}

/// Every register at its greatest so many times in a hundred, else at its least.
fn at_ends(random: &mut Random, known: &Known, percent: usize) -> Start {
    let mut end = |v: usize, percent: usize| {
        let range = known.ranges[v];
        if random.percent(percent) {
            range.hi
        } else {
            range.lo
        }
    };
    let registers: [u32; REGISTERS] = std::array::from_fn(|v| end(v, percent) as u32);
    let [trays, results] = [TRAYS_SIZE, RESULTS_SIZE].map(|v| end(v, LARGE_TABLES) as usize);
    Start { state: State { point: 0, registers }, trays: bytes(random, trays), results: bytes(random, results) }
}

/// The steps that the routine makes until it stops, none where it is broken off. In pieces it is halted now and then.
fn follow(
    random: &mut Random,
    listing: &Listing,
    mut start: Start,
    bound: u64,
    in_pieces: bool,
) -> Result<Option<u64>, String> {
    let from = start.state.registers;
    let piece = |random: &mut Random| if in_pieces { 1 + random.below(12) as u64 } else { bound };
    let mut halt = piece(random);
    for made in 0..=bound {
        if made == halt {
            halt += piece(random);
            take_up(random, listing, &mut start)?;
        }
        match step(listing, &start.state, &start.trays, &mut start.results) {
            Step::Stopped => return Ok(Some(made)),
            Step::Moved(next) => start.state = next,
            Step::Error => return Err(format!("the error state after {made} steps from {from:?}")),
        }
        if made > MOST_STEPS && bound > MOST_STEPS {
            return Ok(None);
        }
    }
    Err(format!("more than {bound} steps from {from:?}, in pieces: {in_pieces}"))
}

/// A halted state meets the claims of its point over tables with any other bytes.
fn take_up(random: &mut Random, listing: &Listing, start: &mut Start) -> Result<(), String> {
    change(random, &mut start.trays);
    change(random, &mut start.results);
    if meets(listing, &start.state, &start.trays, &start.results) {
        return Ok(());
    }
    Err(format!("a halted state does not meet its claims: {:?}", start.state))
}

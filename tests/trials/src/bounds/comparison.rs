//! Two bounds side by side on every listing of a family, and the reference's runs against the bound.

use super::runs::{kept_by_runs, Runs};
use super::tally::BoundTally;
use crate::comparison::readable;
use crate::families::Family;
use crate::random::Random;
use crate::shrink::shrink;
use reference::{step_bound, Refusal};

/// The bound, or the number and the places of the refusal.
#[derive(Clone, Copy, PartialEq, Eq, Debug)]
pub struct Bound {
    pub number: u64,
    pub place: u64,
    pub second: u64,
    pub bound: u64,
}

pub type Bounder<'a> = &'a dyn Fn(&[u8]) -> Bound;

pub fn bound_of_reference(listing: &[u8]) -> Bound {
    match step_bound(listing) {
        Ok(bound) => Bound { number: 0, place: 0, second: 0, bound },
        Err(Refusal { number, place, second }) => Bound { number, place, second, bound: 0 },
    }
}

/// A listing on which two bounds differ, made as small as it could be, or one whose runs do not keep to the first.
#[derive(Debug)]
pub struct BoundDifference {
    pub family: &'static str,
    pub batch: u64,
    pub listing: Vec<u8>,
    pub left: Bound,
    pub right: Bound,
    /// What a run did.
    pub broken: Option<String>,
}

impl std::fmt::Display for BoundDifference {
    fn fmt(&self, out: &mut std::fmt::Formatter) -> std::fmt::Result {
        writeln!(out, "a difference in '{}', batch {}, made smaller:", self.family, self.batch)?;
        write!(out, "{}", readable(&self.listing))?;
        writeln!(out, "first: {:?}\nsecond: {:?}", self.left, self.right)?;
        self.broken.iter().try_for_each(|why| writeln!(out, "{why}"))
    }
}

/// Compares the two on every listing of the family, and has the reference run those that have a bound by the first. The
/// tally counts the answers of the first.
pub fn compare_bounds(
    family: &Family,
    left: Bounder,
    right: Bounder,
) -> Result<(BoundTally, Runs), Box<BoundDifference>> {
    let (mut tally, mut runs) = (BoundTally::default(), Runs::default());
    for batch in 0..family.batches {
        let mut random = Random::new(batch);
        for listing in family.batch(batch) {
            let found = left(&listing);
            if found != right(&listing) {
                return Err(Box::new(difference(family, batch, &listing, left, right)));
            }
            tally.count(&listing, &found);
            if found.number != 0 {
                continue;
            }
            kept_by_runs(&mut random, &listing, found.bound, &mut runs).map_err(|why| {
                let broken = Some(why);
                Box::new(BoundDifference { family: family.name, batch, listing, left: found, right: found, broken })
            })?;
        }
    }
    Ok((tally, runs))
}

fn difference(family: &Family, batch: u64, listing: &[u8], left: Bounder, right: Bounder) -> BoundDifference {
    let listing = shrink(listing, &|smaller| left(smaller) != right(smaller));
    let (left, right) = (left(&listing), right(&listing));
    BoundDifference { family: family.name, batch, listing, left, right, broken: None }
}

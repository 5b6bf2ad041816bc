//! What is known about the variables at a point or along an edge: a range each, and stripes.

use crate::line::{Claim, Stripe, Whole, MAX, REGISTERS, SIZE_LIMIT, VARIABLES};
use crate::listing::Point;

/// Both ends belong to the range; it is empty where lo is above hi. Ends are whole numbers of any sign.
#[derive(Clone, Copy, Debug, PartialEq, Eq)]
pub struct Range {
    pub lo: Whole,
    pub hi: Whole,
}

impl Range {
    pub const REGISTER: Range = Range { lo: 0, hi: MAX };
    pub const SIZE: Range = Range { lo: 0, hi: SIZE_LIMIT };

    pub fn only(number: Whole) -> Range {
        Range { lo: number, hi: number }
    }

    pub fn is_empty(&self) -> bool {
        self.lo > self.hi
    }

    pub fn holds(&self, value: Whole) -> bool {
        self.lo <= value && value <= self.hi
    }
}

#[derive(Clone, Debug, PartialEq, Eq)]
pub struct Known {
    pub ranges: [Range; VARIABLES],
    pub stripes: Vec<Stripe>,
}

impl Known {
    /// Nothing claimed.
    pub fn nothing() -> Known {
        let mut ranges = [Range::REGISTER; VARIABLES];
        ranges[REGISTERS..].fill(Range::SIZE);
        Known { ranges, stripes: Vec::new() }
    }

    /// What the claims of a point say.
    pub fn at(point: &Point) -> Known {
        let mut known = Known::nothing();
        for line in &point.claims {
            known.learn(&line.claim);
        }
        known
    }

    fn learn(&mut self, claim: &Claim) {
        match *claim {
            Claim::Least { v, value } => self.ranges[v].lo = value,
            Claim::Most { v, value } => self.ranges[v].hi = value,
            Claim::Stripe(stripe) => self.stripes.push(stripe),
        }
    }

    pub fn has_empty_range(&self) -> bool {
        self.ranges.iter().any(Range::is_empty)
    }
}

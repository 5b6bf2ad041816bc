//! Two readers side by side on the points of every listing of a family.

use super::questions::points;
use super::tally::PartTally;
use crate::comparison::readable;
use crate::families::Family;
use crate::random::Random;
use crate::shrink::shrink;
use reference::Refusal;

/// A reader's answer for one listing and point: the number and the place of the refusal, or 0, and where the part that
/// holds the claim lines begins and how many bytes it has.
#[derive(Clone, Copy, PartialEq, Eq, Debug)]
pub struct Part {
    pub number: u64,
    pub place: u64,
    pub offset: u64,
    pub length: u64,
}

pub type PartReader<'a> = &'a dyn Fn(&[u8], u64) -> Part;

pub fn part_of_reference(listing: &[u8], point: u64) -> Part {
    match reference::claim_span(listing, point) {
        Ok(span) => Part { number: 0, place: 0, offset: span.start as u64, length: span.len() as u64 },
        Err(Refusal { number, place, .. }) => Part { number, place, offset: 0, length: 0 },
    }
}

/// A call on which two readers differ, its listing made as small as it could be.
#[derive(Debug)]
pub struct PartDifference {
    pub family: &'static str,
    pub listing: Vec<u8>,
    pub point: u64,
    pub left: Part,
    pub right: Part,
}

impl std::fmt::Display for PartDifference {
    fn fmt(&self, out: &mut std::fmt::Formatter) -> std::fmt::Result {
        writeln!(out, "a difference in '{}' at point {}, made smaller:", self.family, self.point)?;
        write!(out, "{}", readable(&self.listing))?;
        writeln!(out, "first: {:?}\nsecond: {:?}", self.left, self.right)
    }
}

/// Compares the two on some points of every listing of the family. The tally counts the answers of the first.
pub fn compare_parts(family: &Family, left: PartReader, right: PartReader) -> Result<PartTally, Box<PartDifference>> {
    let mut tally = PartTally::default();
    for batch in 0..family.batches {
        let mut random = Random::new(batch);
        for listing in family.batch(batch) {
            for point in points(&mut random, &listing) {
                let part = left(&listing, point);
                if part != right(&listing, point) {
                    return Err(Box::new(difference(family.name, &listing, point, left, right)));
                }
                tally.count(&listing, point, &part);
            }
        }
    }
    Ok(tally)
}

fn difference(family: &'static str, listing: &[u8], point: u64, left: PartReader, right: PartReader) -> PartDifference {
    let listing = shrink(listing, &|smaller| left(smaller, point) != right(smaller, point));
    let (left, right) = (left(&listing, point), right(&listing, point));
    PartDifference { family, listing, point, left, right }
}

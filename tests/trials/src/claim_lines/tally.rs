//! How often each answer of the call for claim lines came up.

use super::comparison::Part;
use crate::shrink::is_claim;
use crate::tally::{Answers, Counts};
use lines::LINE;
use reference::refusals::ONE_REGISTER_TWICE;

/// Claim lines that no other point has byte for byte, claim lines that another one has too, no claim lines, the
/// refusals 1 to 11 and 19, then 16 for a point that does not exist and for the greatest number.
#[derive(Clone, Debug)]
pub struct PartAnswers;

impl Answers for PartAnswers {
    const NAMES: &'static [&'static str] =
        &["lines", "equal", "none", "1", "2", "3", "4", "5", "6", "7", "8", "9", "10", "11", "19", "16", "16 max"];
}

const FIRST_REFUSAL: usize = 3;

pub type PartTally = Counts<PartAnswers>;

impl PartTally {
    pub fn count(&mut self, listing: &[u8], point: u64, part: &Part) {
        self.count_at(column(listing, point, part));
    }
}

fn column(listing: &[u8], point: u64, part: &Part) -> usize {
    match (part.number, part.length) {
        (0, 0) => 2,
        (0, length) => usize::from(has_twin(listing, part.offset as usize, length as usize)),
        (number @ 1..=11, _) => number as usize - 1 + FIRST_REFUSAL,
        (ONE_REGISTER_TWICE, _) => 11 + FIRST_REFUSAL,
        (16, _) => PartAnswers::NAMES.len() - 1 - usize::from(point != u64::MAX),
        (other, _) => panic!("no call for claim lines is turned back by {other}"),
    }
}

/// Whether another point has claim lines with the same bytes.
fn has_twin(listing: &[u8], offset: usize, length: usize) -> bool {
    let part = &listing[offset..offset + length];
    let lines: Vec<&[u8]> = listing.chunks(LINE).collect();
    let of_each_point = lines.split(|line| !is_claim(line));
    of_each_point.filter(|claims| claims.iter().copied().eq(part.chunks(LINE))).count() > 1
}

//! What every point owes that is not empty. Refusals 12 to 14, and the checker's whole answer.

use crate::edges::edges_within;
use crate::follows::{claim_follows, goal_follows, LINKS};
use crate::known::Known;
use crate::limits::Limits;
use crate::line::{Instruction, Operand, Stripe, Whole, RESULTS_SIZE, TRAYS_SIZE};
use crate::listing::{read_within, Listing, Refusal};
use crate::refusals::{ACCESS_MAY_LEAVE, CLAIM_DOES_NOT_FOLLOW, DIVISOR_MAY_BE_ZERO};

/// The checker's answer: number 0 and the points for a listing that passes, else the refusal and no points.
#[derive(Clone, Copy, Debug, PartialEq, Eq)]
pub struct Answer {
    pub number: u64,
    pub place: u64,
    pub second: u64,
    pub points: u64,
}

pub fn check(listing: &[u8]) -> Answer {
    check_within(Limits::TODAY, listing)
}

pub fn check_within(limits: Limits, listing: &[u8]) -> Answer {
    match passed(limits, listing) {
        Ok(listing) => Answer { number: 0, place: 0, second: 0, points: listing.points.len() as u64 },
        Err(Refusal { number, place, second }) => Answer { number, place, second, points: 0 },
    }
}

/// The points of a listing that is turned back by none of 1 to 14 and 19.
pub(crate) fn passed(limits: Limits, listing: &[u8]) -> Result<Listing, Refusal> {
    let listing = read_within(limits, listing)?;
    for point in 0..listing.points.len() {
        owed(limits, &listing, point)?;
    }
    Ok(listing)
}

/// An empty point owes nothing; the points that lead to it owe its claims, which only an impossible edge can show.
fn owed(limits: Limits, listing: &Listing, index: usize) -> Result<(), Refusal> {
    let point = &listing.points[index];
    if point.is_empty() {
        return Ok(());
    }
    let known = Known::at(point);
    if !divisor_is_safe(&point.instruction, &known) {
        return Err(Refusal::new(DIVISOR_MAY_BE_ZERO, point.line));
    }
    if !access_is_safe(&point.instruction, &known) {
        return Err(Refusal::new(ACCESS_MAY_LEAVE, point.line));
    }
    for edge in edges_within(limits, index, &point.instruction, &known) {
        let Some(along) = edge.known else { continue };
        for owed in &listing.points[edge.to].claims {
            if !claim_follows(&along, &owed.claim) {
                return Err(Refusal { number: CLAIM_DOES_NOT_FOLLOW, place: point.line, second: owed.line });
            }
        }
    }
    Ok(())
}

fn divisor_is_safe(instruction: &Instruction, known: &Known) -> bool {
    match instruction.divisor() {
        Some(Operand::Number(number)) => number > 0,
        Some(Operand::Variable(v)) => known.ranges[v].lo >= 1,
        None => true,
    }
}

fn access_is_safe(instruction: &Instruction, known: &Known) -> bool {
    match *instruction {
        Instruction::Load { width, table, scale, i, offset, .. } => {
            let size = if table == 0 { TRAYS_SIZE } else { RESULTS_SIZE };
            fits(known, size, scale, i, offset + width)
        }
        Instruction::Store { width, scale, i, offset, .. } => fits(known, RESULTS_SIZE, scale, i, offset + width),
        _ => true,
    }
}

/// scale × i + end ≤ size.
fn fits(known: &Known, size: usize, scale: Whole, i: usize, end: Whole) -> bool {
    let goal = Stripe { x: size, a: scale, y: i, z: None, b: end };
    scale * known.ranges[i].hi + end <= known.ranges[size].lo || goal_follows(known, &goal, LINKS)
}

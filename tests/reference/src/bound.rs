//! The greatest number of steps that a routine can need from point 0. Refusals 1 to 14 and 19 as the checker has them, then
//! 20.

use crate::checker::passed;
use crate::known::Known;
use crate::limits::Limits;
use crate::line::{Arithmetic, Instruction, Operand, Whole};
use crate::listing::{Listing, Point, Refusal};
use crate::refusals::WAY_BACK_NOT_COVERED;

/// The bound: the points where nothing goes back, else the points times one more than the TURN register can hold at the
/// start.
pub fn step_bound(listing: &[u8]) -> Result<u64, Refusal> {
    step_bound_within(Limits::TODAY, listing)
}

pub fn step_bound_within(limits: Limits, listing: &[u8]) -> Result<u64, Refusal> {
    let listing = passed(limits, listing)?;
    let back: Vec<usize> = (0..listing.points.len()).filter(|&at| goes_back(&listing, at)).collect();
    if let Some(&first) = back.iter().find(|&&at| !is_covered(&listing, at)) {
        return Err(Refusal::new(WAY_BACK_NOT_COVERED, listing.points[first].line));
    }
    let points = listing.points.len() as Whole;
    let bound = match listing.turn {
        Some(turn) if !back.is_empty() => points * (Known::at(&listing.points[0]).ranges[turn].hi + 1),
        _ => points,
    };
    Ok(bound as u64)
}

/// Whether an edge leads from the point to itself or to an earlier one, be it possible or not. The edge to the next
/// point does not.
fn goes_back(listing: &Listing, at: usize) -> bool {
    listing.points[at].instruction.target().is_some_and(|target| target <= at)
}

/// Whether the point is a JUMP to which nothing jumps or branches, right behind a SUBW of the TURN register, and all that
/// writes this register counts it down.
fn is_covered(listing: &Listing, at: usize) -> bool {
    let Some(turn) = listing.turn else { return false };
    let points = &listing.points;
    let jumps = matches!(points[at].instruction, Instruction::Jump { .. });
    let is_target = points.iter().any(|point| point.instruction.target() == Some(at));
    let behind = at > 0 && subtracts_into(&points[at - 1].instruction, turn);
    let mut writers = points.iter().filter(|point| point.instruction.written().contains(&turn));
    jumps && !is_target && behind && writers.all(|point| counts_down(point, turn))
}

fn subtracts_into(instruction: &Instruction, register: usize) -> bool {
    matches!(*instruction, Instruction::Compute { kind: Arithmetic::Subtract, d, .. } if d == register)
}

/// Whether the point takes a number of at least 1 from the register, and its own claims show that so much is there.
fn counts_down(point: &Point, register: usize) -> bool {
    match point.instruction {
        Instruction::Compute { kind: Arithmetic::Subtract, d, i, o: Operand::Number(number) } => {
            d == register && i == register && number >= 1 && Known::at(point).ranges[register].lo >= number
        }
        _ => false,
    }
}

//! A whole listing: lines to points. Refusals 1 to 11, and 19 among them.

use crate::known::Known;
use crate::limits::Limits;
use crate::line::{read_line_within, Claim, Instruction, Line};
use crate::refusals::{
    BAD_LENGTH, BAD_ORDER, EMPTY_START, ENDS_IN_CLAIM, NO_SUCH_POINT, NO_SUCH_TARGET, RUNS_OFF_THE_END, TOO_MANY_POINTS,
};
use std::ops::Range;

pub const LINE_BYTES: usize = 40;
/// The longest listing in bytes.
pub const LONGEST: usize = 65_520;

const MOST_POINTS: usize = 512;
const MOST_STRIPES: usize = 8;

/// Why something is turned back: the number, the place, and for 14 the second place.
#[derive(Clone, Copy, Debug, PartialEq, Eq)]
pub struct Refusal {
    pub number: u64,
    pub place: u64,
    pub second: u64,
}

impl Refusal {
    pub(crate) fn new(number: u64, place: u64) -> Refusal {
        Refusal { number, place, second: 0 }
    }
}

/// A claim and its line, counted from 1.
#[derive(Clone, Copy, Debug, PartialEq, Eq)]
pub struct ClaimLine {
    pub claim: Claim,
    pub line: u64,
}

/// An instruction, its line counted from 1, and the claims before it.
#[derive(Clone, Debug, PartialEq, Eq)]
pub struct Point {
    pub instruction: Instruction,
    pub line: u64,
    pub claims: Vec<ClaimLine>,
}

impl Point {
    /// Whether the claimed ranges leave some variable no value, so that no state meets them. Stripes do not count.
    pub fn is_empty(&self) -> bool {
        Known::at(self).has_empty_range()
    }
}

/// The points, and the register of the TURN line if there is one.
#[derive(Clone, Debug, PartialEq, Eq)]
pub struct Listing {
    pub turn: Option<usize>,
    pub points: Vec<Point>,
}

/// The points of a listing that is turned back by none of 1 to 11 and 19.
pub fn read(bytes: &[u8]) -> Result<Listing, Refusal> {
    read_within(Limits::TODAY, bytes)
}

pub fn read_within(limits: Limits, bytes: &[u8]) -> Result<Listing, Refusal> {
    if bytes.is_empty() || bytes.len() > LONGEST || !bytes.len().is_multiple_of(LINE_BYTES) {
        return Err(Refusal::new(BAD_LENGTH, 0));
    }
    let last_line = (bytes.len() / LINE_BYTES) as u64;
    let mut turn = None;
    let mut points: Vec<Point> = Vec::new();
    let mut claims: Vec<ClaimLine> = Vec::new();
    for (index, bytes) in bytes.chunks(LINE_BYTES).enumerate() {
        let line = index as u64 + 1;
        match read_line_within(limits, bytes).map_err(|number| Refusal::new(number, line))? {
            Line::Instruction(instruction) => {
                points.push(Point { instruction, line, claims: std::mem::take(&mut claims) });
            }
            Line::Turn(register) if line == 1 => turn = Some(register),
            Line::Claim(claim) if in_order(&claims, &claim) => claims.push(ClaimLine { claim, line }),
            Line::Turn(_) | Line::Claim(_) => return Err(Refusal::new(BAD_ORDER, line)),
        }
    }
    if points.last().is_none_or(|point| point.line != last_line) {
        return Err(Refusal::new(ENDS_IN_CLAIM, last_line));
    }
    if points.len() > MOST_POINTS {
        return Err(Refusal::new(TOO_MANY_POINTS, points[MOST_POINTS].line));
    }
    well_formed(&points, last_line)?;
    Ok(Listing { turn, points })
}

/// Refusals 9 to 11.
fn well_formed(points: &[Point], last_line: u64) -> Result<(), Refusal> {
    for point in points {
        if point.instruction.target().is_some_and(|target| target >= points.len()) {
            return Err(Refusal::new(NO_SUCH_TARGET, point.line));
        }
    }
    let last = points[points.len() - 1].instruction;
    if !matches!(last, Instruction::Stop | Instruction::Jump { .. }) {
        return Err(Refusal::new(RUNS_OFF_THE_END, last_line));
    }
    if points[0].is_empty() {
        return Err(Refusal::new(EMPTY_START, points[0].line));
    }
    Ok(())
}

/// Whether the claim may follow the claims already standing before the same instruction.
fn in_order(before: &[ClaimLine], claim: &Claim) -> bool {
    let Some(last) = before.last() else { return true };
    match (last.claim, *claim) {
        (Claim::Least { v: last, .. }, Claim::Least { v, .. }) => v > last,
        (Claim::Most { v: last, .. }, Claim::Most { v, .. }) => v > last,
        (Claim::Stripe(_), Claim::Stripe(_)) => stripes(before) < MOST_STRIPES,
        (Claim::Least { .. }, _) => true,
        (Claim::Most { .. }, Claim::Stripe(_)) => true,
        _ => false,
    }
}

fn stripes(claims: &[ClaimLine]) -> usize {
    claims.iter().filter(|line| matches!(line.claim, Claim::Stripe(_))).count()
}

/// Where the claim lines of a point stand: all lines between the instruction before it and its own. A TURN line is one
/// of point 0's.
pub fn claim_span(bytes: &[u8], point: u64) -> Result<Range<usize>, Refusal> {
    claim_span_within(Limits::TODAY, bytes, point)
}

pub fn claim_span_within(limits: Limits, bytes: &[u8], point: u64) -> Result<Range<usize>, Refusal> {
    let listing = read_within(limits, bytes)?;
    let Some(at) = usize::try_from(point).ok().filter(|&at| at < listing.points.len()) else {
        return Err(Refusal::new(NO_SUCH_POINT, 0));
    };
    let start_of = |line: u64| (line as usize - 1) * LINE_BYTES;
    let first = if at == 0 { 1 } else { listing.points[at - 1].line + 1 };
    Ok(start_of(first)..start_of(listing.points[at].line))
}

/// The part of the listing that holds the claim lines of a point, empty where there are none.
pub fn claim_lines(bytes: &[u8], point: u64) -> Result<&[u8], Refusal> {
    claim_span(bytes, point).map(|span| &bytes[span])
}

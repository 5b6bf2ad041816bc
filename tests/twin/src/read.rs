//! A listing read in one pass: its points, and its claims in a compact form that is not parsed again.
//! Refusals 1 to 11 and 19.

use crate::facts::Facts;
use crate::line::{read_line, turn_register, Claim, Instruction, Line, LINE};
use crate::Answer;
use reference::refusals::{
    BAD_LENGTH, BAD_ORDER, EMPTY_START, ENDS_IN_CLAIM, NO_SUCH_TARGET, RUNS_OFF_THE_END, TOO_MANY_POINTS,
};

const LONGEST: usize = 65_520;
const MOST_STRIPES: u8 = 8;

pub const MOST_LINES: usize = LONGEST / LINE;
pub const MOST_POINTS: usize = 512;
const FEW_LINES: usize = 64;

/// An instruction, its line counted from 0, and how many claim lines stand before it.
#[derive(Clone, Copy)]
pub struct Point {
    pub instruction: Instruction,
    pub line: u16,
    pub claims: u16,
}

/// A listing that has been read: its points in order, its claims by their lines, and the register of its TURN.
#[derive(Clone, Copy)]
pub struct Listing<'a> {
    pub points: &'a [Point],
    claims: &'a [Claim],
    pub turn: Option<u8>,
}

/// Where the claims before one instruction have come to.
#[derive(Clone, Copy, Default)]
struct Order {
    claims: u16,
    rank: u8,
    variable: u8,
    stripes: u8,
}

const STRIPE_RANK: u8 = 2;

const NO_POINT: Point = Point { instruction: Instruction::Stop, line: 0, claims: 0 };
/// It says nothing and follows from everything, so it may stand for a TURN.
const NO_CLAIM: Claim = Claim::Least { v: 0, value: 0 };

/// Calls with arrays for the points and the claims of a listing. A short one gets small arrays, so that it does not
/// pay for clearing the large ones.
#[inline]
pub fn in_room<T>(text: &[u8], call: impl FnOnce(&mut [Point], &mut [Claim]) -> T) -> T {
    if text.len() <= FEW_LINES * LINE {
        return call(&mut [NO_POINT; FEW_LINES], &mut [NO_CLAIM; FEW_LINES]);
    }
    call(&mut [NO_POINT; MOST_POINTS], &mut [NO_CLAIM; MOST_LINES])
}

impl Listing<'_> {
    /// The claims that stand before a point.
    #[inline]
    pub fn claims(&self, point: &Point) -> &[Claim] {
        let end = point.line as usize;
        &self.claims[end - point.claims as usize..end]
    }
}

pub fn read<'a>(text: &[u8], points: &'a mut [Point], claims: &'a mut [Claim]) -> Result<Listing<'a>, Answer> {
    if text.is_empty() || text.len() > LONGEST || !text.len().is_multiple_of(LINE) {
        return Err(Answer::refused(BAD_LENGTH, 0));
    }
    let count = read_lines(text, points, claims)?;
    let turn = turn_register(text);
    points[0].claims += u16::from(turn.is_some());
    let listing = Listing { points: &points[..count], claims, turn };
    targets_exist(listing.points)?;
    let (first, last) = (&listing.points[0], &listing.points[count - 1]);
    if !matches!(last.instruction, Instruction::Stop | Instruction::Jump { .. }) {
        return Err(Answer::refused(RUNS_OFF_THE_END, last.line as usize + 1));
    }
    if Facts::at(listing.claims(first)).impossible() {
        return Err(Answer::refused(EMPTY_START, first.line as usize + 1));
    }
    Ok(listing)
}

/// Refusals 2 to 8 and 19; the number of points where there is none. A TURN is not yet counted among the claims of
/// point 0, so that any claim may come after it.
fn read_lines(text: &[u8], points: &mut [Point], claims: &mut [Claim]) -> Result<usize, Answer> {
    let (mut count, mut order, mut surplus) = (0, Order::default(), 0);
    for (at, line) in text.as_chunks::<LINE>().0.iter().enumerate() {
        match read_line(line) {
            Ok(Line::Claim(claim)) => {
                order = order.after(&claim).ok_or(Answer::refused(BAD_ORDER, at + 1))?;
                claims[at] = claim;
            }
            Ok(Line::Instruction(instruction)) => {
                if count < points.len() {
                    points[count] = Point { instruction, line: at as u16, claims: order.claims };
                    count += 1;
                } else if surplus == 0 {
                    surplus = at + 1;
                }
                order = Order::default();
            }
            Err(BAD_ORDER) if at == 0 => claims[at] = NO_CLAIM,
            Err(number) => return Err(Answer::refused(number, at + 1)),
        }
    }
    if order.claims > 0 || count == 0 {
        return Err(Answer::refused(ENDS_IN_CLAIM, text.len() / LINE));
    }
    if surplus > 0 {
        return Err(Answer::refused(TOO_MANY_POINTS, surplus));
    }
    Ok(count)
}

/// Refusal 9.
fn targets_exist(points: &[Point]) -> Result<(), Answer> {
    for point in points {
        if let Instruction::Jump { target } | Instruction::Less { target, .. } | Instruction::Equal { target, .. } =
            point.instruction
        {
            if target as usize >= points.len() {
                return Err(Answer::refused(NO_SUCH_TARGET, point.line as usize + 1));
            }
        }
    }
    Ok(())
}

impl Order {
    /// None where the claim may not stand here.
    #[inline]
    fn after(self, claim: &Claim) -> Option<Order> {
        let (rank, variable) = match *claim {
            Claim::Least { v, .. } => (0, v),
            Claim::Most { v, .. } => (1, v),
            Claim::Stripe { .. } => (STRIPE_RANK, 0),
        };
        let stripes = self.stripes + u8::from(rank == STRIPE_RANK);
        let rises = rank == STRIPE_RANK || variable > self.variable;
        let fits = self.claims == 0 || rank > self.rank || (rank == self.rank && rises);
        (fits && stripes <= MOST_STRIPES).then_some(Order { claims: self.claims + 1, rank, variable, stripes })
    }
}

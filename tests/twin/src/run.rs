//! The runner: the points are decoded once for each call, then each step is one `match`. Addresses and divisors are
//! not tested, beyond what safe Rust does at every index and division.

use crate::facts::{Facts, Stripe, VARIABLES};
use crate::line::{Instruction, Operand, RESULTS_SIZE, SIZE_LIMIT, TRAYS_SIZE};
use crate::quotient::nearest;
use crate::read::{in_room, Listing, Point};
use crate::{checked, Answer};
use reference::refusals::{CLAIMS_NOT_MET, NO_SUCH_POINT, TABLE_TOO_LONG};

const REGISTERS: usize = 16;

#[derive(Clone, Copy, Debug, PartialEq, Eq)]
pub struct State {
    pub point: usize,
    pub registers: [u32; REGISTERS],
}

#[derive(Clone, Copy, Debug, PartialEq, Eq)]
pub enum Report {
    Stopped,
    Paused,
    Refused(Answer),
}

#[derive(Clone, Copy, Debug, PartialEq, Eq)]
pub struct Outcome {
    pub report: Report,
    pub state: State,
    pub steps: u32,
}

/// The registers, then the sizes of the tables.
type Values = [u32; VARIABLES];

/// Runs at most `budget` steps. A run that is turned back makes none: state and results are as they were.
pub fn run(text: &[u8], state: State, trays: &[u8], results: &mut [u8], budget: u32) -> Outcome {
    let run = in_room(text, |points, claims| {
        let listing = checked(text, points, claims)?;
        let values = admitted(&listing, &state, trays, results)?;
        Ok(steps(listing.points, state.point, values, trays, results, budget))
    });
    run.unwrap_or_else(|answer| Outcome { report: Report::Refused(answer), state, steps: 0 })
}

/// Refusals 15 to 17; the values of all variables where there is none.
fn admitted(listing: &Listing, state: &State, trays: &[u8], results: &[u8]) -> Result<Values, Answer> {
    if trays.len() as u64 > SIZE_LIMIT || results.len() as u64 > SIZE_LIMIT {
        return Err(Answer::refused(TABLE_TOO_LONG, 0));
    }
    let point = listing.points.get(state.point).ok_or(Answer::refused(NO_SUCH_POINT, 0))?;
    let mut values = [0; VARIABLES];
    values[..REGISTERS].copy_from_slice(&state.registers);
    values[TRAYS_SIZE as usize] = trays.len() as u32;
    values[RESULTS_SIZE as usize] = results.len() as u32;
    if meets(&Facts::at(listing.claims(point)), &values) {
        Ok(values)
    } else {
        Err(Answer::refused(CLAIMS_NOT_MET, 0))
    }
}

fn meets(facts: &Facts, values: &Values) -> bool {
    let value = |v: usize| values.get(v).map_or(0, |&value| i64::from(value));
    let in_range = (0..VARIABLES).all(|v| facts.lo[v] <= value(v) && value(v) <= facts.hi[v]);
    let holds = |stripe: &Stripe| {
        let sum = value(stripe.y as usize) + value(stripe.z as usize);
        value(stripe.x as usize) - i64::from(stripe.a) * sum >= stripe.b
    };
    in_range && facts.stripes().iter().all(holds)
}

fn steps(
    points: &[Point],
    mut at: usize,
    mut values: Values,
    trays: &[u8],
    results: &mut [u8],
    budget: u32,
) -> Outcome {
    let mut made = 0;
    let report = loop {
        let instruction = &points[at].instruction;
        if made == budget && !matches!(instruction, Instruction::Stop) {
            break Report::Paused;
        }
        match step(instruction, at, &mut values, trays, results) {
            Some(next) => at = next,
            None => break Report::Stopped,
        }
        made += 1;
    };
    let mut registers = [0; REGISTERS];
    registers.copy_from_slice(&values[..REGISTERS]);
    Outcome { report, state: State { point: at, registers }, steps: made }
}

/// One step from the point `at`: the point it comes to, or none where it is stopped.
#[inline]
fn step(instruction: &Instruction, at: usize, values: &mut Values, trays: &[u8], results: &mut [u8]) -> Option<usize> {
    let value = |v: u8| values[v as usize];
    let operand = |o: Operand| match o {
        Operand::Variable(v) => value(v),
        Operand::Number(number) => number,
    };
    let address = |scale: u16, i: u8, offset: u16| scale as usize * value(i) as usize + offset as usize;
    let (d, written) = match *instruction {
        Instruction::Stop => return None,
        Instruction::Set { d, number } => (d, number),
        Instruction::Copy { d, i } => (d, value(i)),
        Instruction::Add { d, i, o } => (d, value(i).wrapping_add(operand(o))),
        Instruction::Subtract { d, i, o } => (d, value(i).wrapping_sub(operand(o))),
        Instruction::Multiply { d, i, o } => (d, value(i).wrapping_mul(operand(o))),
        Instruction::Divide { d, i, o } => (d, nearest(u64::from(value(i)), u64::from(operand(o))) as u32),
        Instruction::Load { d, width, size, scale, i, offset } => {
            let table = if size == TRAYS_SIZE { trays } else { &*results };
            (d, load(table, address(scale, i, offset), width))
        }
        Instruction::Store { stored, width, scale, i, offset } => {
            store(results, address(scale, i, offset), width, value(stored));
            return Some(at + 1);
        }
        Instruction::Jump { target } => return Some(target as usize),
        Instruction::Less { i, target, o } => {
            return Some(if value(i) < operand(o) { target as usize } else { at + 1 });
        }
        Instruction::Equal { i, target, o } => {
            return Some(if value(i) == operand(o) { target as usize } else { at + 1 });
        }
        Instruction::DivMod { q, i, r, o } => {
            let (i, o) = (value(i), operand(o));
            values[r as usize] = i % o;
            (q, i / o)
        }
    };
    values[d as usize] = written;
    Some(at + 1)
}

#[inline]
fn load(table: &[u8], at: usize, width: u8) -> u32 {
    match width {
        1 => u32::from(table[at]),
        2 => u32::from(u16::from_le_bytes(bytes(table, at))),
        _ => u32::from_le_bytes(bytes(table, at)),
    }
}

/// The N bytes from a place on, with one test of the table's end.
#[inline]
fn bytes<const N: usize>(table: &[u8], at: usize) -> [u8; N] {
    table[at..at + N].try_into().expect("N bytes")
}

#[inline]
fn store(table: &mut [u8], at: usize, width: u8, stored: u32) {
    let bytes = stored.to_le_bytes();
    match width {
        1 => table[at] = bytes[0],
        2 => table[at..at + 2].copy_from_slice(&bytes[..2]),
        _ => table[at..at + 4].copy_from_slice(&bytes),
    }
}

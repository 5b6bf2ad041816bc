//! The machine: one step of a state over the two tables, with the error state, and when a state meets its claims.

use crate::known::Known;
use crate::line::{Arithmetic, Comparison, Instruction, Operand, Stripe, Whole, MAX, REGISTERS, TRAYS_SIZE};
use crate::listing::{Listing, Point};
use crate::quotient::{left_over, nearest, rounded_down};

#[derive(Clone, Copy, Debug, PartialEq, Eq)]
pub struct State {
    pub point: u64,
    pub registers: [u32; REGISTERS],
}

#[derive(Clone, Copy, Debug, PartialEq, Eq)]
pub enum Step {
    /// The state after one step.
    Moved(State),
    /// The state stands at STOP and makes no step.
    Stopped,
    /// An access outside its table, a zero divisor, or no such point.
    Error,
}

/// One step. Only a store inside table 1 changes `results`.
pub fn step(listing: &Listing, state: &State, trays: &[u8], results: &mut [u8]) -> Step {
    let Some(point) = point_of(listing, state) else { return Step::Error };
    let value = |v: usize| value(state, v, trays.len(), results.len());
    let operand = |o: Operand| match o {
        Operand::Variable(v) => value(v),
        Operand::Number(number) => number,
    };
    match point.instruction {
        Instruction::Stop => Step::Stopped,
        Instruction::Set { d, number } => Step::Moved(set(state, &[(d, number)])),
        Instruction::Copy { d, i } => Step::Moved(set(state, &[(d, value(i))])),
        Instruction::Compute { kind, d, i, o } => {
            moved(compute(kind, value(i), operand(o)).map(|result| set(state, &[(d, result)])))
        }
        Instruction::DivMod { q, i, r, o } => {
            moved(div_mod(value(i), operand(o)).map(|(whole, rest)| set(state, &[(q, whole), (r, rest)])))
        }
        Instruction::Load { d, width, table, scale, i, offset } => {
            let bytes: &[u8] = if table == 0 { trays } else { results };
            moved(load(bytes, scale * value(i) + offset, width).map(|loaded| set(state, &[(d, loaded)])))
        }
        Instruction::Store { stored, width, scale, i, offset } => {
            let (stored, address) = (value(stored), scale * value(i) + offset);
            moved(store(results, address, width, stored).map(|()| set(state, &[])))
        }
        Instruction::Jump { target } => Step::Moved(State { point: target as u64, ..*state }),
        Instruction::Branch { kind, i, target, o } => {
            let (left, right) = (value(i), operand(o));
            let taken = match kind {
                Comparison::Less => left < right,
                Comparison::Equal => left == right,
            };
            Step::Moved(State { point: if taken { target as u64 } else { state.point + 1 }, ..*state })
        }
    }
}

fn point_of<'a>(listing: &'a Listing, state: &State) -> Option<&'a Point> {
    listing.points.get(usize::try_from(state.point).ok()?)
}

fn value(state: &State, v: usize, trays: usize, results: usize) -> Whole {
    if v < REGISTERS {
        return Whole::from(state.registers[v]);
    }
    if v == TRAYS_SIZE {
        trays as Whole
    } else {
        results as Whole
    }
}

/// Without a state after it, the step leads to the error state.
fn moved(after: Option<State>) -> Step {
    after.map_or(Step::Error, Step::Moved)
}

/// Registers take values and the state moves to the next point.
fn set(state: &State, values: &[(usize, Whole)]) -> State {
    let mut after = State { point: state.point + 1, ..*state };
    for &(d, value) in values {
        after.registers[d] = value as u32;
    }
    after
}

fn compute(kind: Arithmetic, left: Whole, right: Whole) -> Option<Whole> {
    match kind {
        Arithmetic::Add => Some((left + right).rem_euclid(MAX + 1)),
        Arithmetic::Subtract => Some((left - right).rem_euclid(MAX + 1)),
        Arithmetic::Multiply => Some((left * right).rem_euclid(MAX + 1)),
        Arithmetic::Divide => (right != 0).then(|| nearest(left, right)),
    }
}

/// The quotient rounded down and the remainder.
fn div_mod(left: Whole, right: Whole) -> Option<(Whole, Whole)> {
    (right != 0).then(|| (rounded_down(left, right), left_over(left, right)))
}

fn load(table: &[u8], address: Whole, width: Whole) -> Option<Whole> {
    if address + width > table.len() as Whole {
        return None;
    }
    let bytes = &table[address as usize..(address + width) as usize];
    Some(bytes.iter().rev().fold(0, |loaded, &byte| loaded * 256 + Whole::from(byte)))
}

fn store(table: &mut [u8], address: Whole, width: Whole, stored: Whole) -> Option<()> {
    if address + width > table.len() as Whole {
        return None;
    }
    let mut rest = stored;
    for byte in &mut table[address as usize..(address + width) as usize] {
        *byte = (rest % 256) as u8;
        rest /= 256;
    }
    Some(())
}

/// Whether the state's point exists and the state meets every claim there; sizes are the lengths of the tables.
pub fn meets(listing: &Listing, state: &State, trays: &[u8], results: &[u8]) -> bool {
    let Some(point) = point_of(listing, state) else { return false };
    let known = Known::at(point);
    let value = |v: usize| value(state, v, trays.len(), results.len());
    let in_range = known.ranges.iter().enumerate().all(|(v, range)| range.holds(value(v)));
    in_range && known.stripes.iter().all(|stripe| stripe_holds(stripe, &value))
}

fn stripe_holds(stripe: &Stripe, value: &dyn Fn(usize) -> Whole) -> bool {
    value(stripe.x) - stripe.a * (value(stripe.y) + stripe.z.map_or(0, value)) >= stripe.b
}

//! What a step does to ranges and stripes, along each edge that leaves a point.

use crate::known::{Known, Range};
use crate::limits::Limits;
use crate::line::{Arithmetic, Comparison, Instruction, Operand, Stripe, Whole, MAX};
use crate::quotient::{nearest, rounded_down};

/// Where an edge leads, and what is known along it. Along an impossible edge, nothing need be shown.
#[derive(Clone, Debug)]
pub struct Edge {
    pub to: usize,
    pub known: Option<Known>,
}

/// The edges of the instruction at `point`: the one to the point after it comes before the one to its target.
pub fn edges(point: usize, instruction: &Instruction, before: &Known) -> Vec<Edge> {
    edges_within(Limits::TODAY, point, instruction, before)
}

pub fn edges_within(limits: Limits, point: usize, instruction: &Instruction, before: &Known) -> Vec<Edge> {
    let edge = |to, after: Option<Known>| Edge { to, known: after.filter(|known| !known.has_empty_range()) };
    match *instruction {
        Instruction::Stop => vec![],
        Instruction::Jump { target } => vec![edge(target, Some(before.clone()))],
        Instruction::Branch { kind: Comparison::Less, i, target, o } => {
            vec![edge(point + 1, Some(not_less(before, i, o))), edge(target, Some(less(before, i, o)))]
        }
        Instruction::Branch { kind: Comparison::Equal, i, target, o } => {
            vec![edge(point + 1, Some(not_equal(before, i, o))), edge(target, Some(equal(before, i, o)))]
        }
        _ => vec![edge(point + 1, after_straight(limits, instruction, before))],
    }
}

/// After an instruction whose only successor is the next point; none where no step is possible.
fn after_straight(limits: Limits, instruction: &Instruction, before: &Known) -> Option<Known> {
    match *instruction {
        Instruction::Set { d, number } => Some(written(before, d, Range::only(number), &[])),
        Instruction::Load { d, width, .. } => {
            let hi = (Whole::from(256u32)).pow(width as u32) - 1;
            Some(written(before, d, Range { lo: 0, hi }, &[]))
        }
        Instruction::Copy { d, i } => Some(copied(before, d, i)),
        Instruction::Compute { kind: Arithmetic::Add, d, i, o } => Some(added(limits, before, d, i, o)),
        Instruction::Compute { kind: Arithmetic::Subtract, d, i, o } => Some(subtracted(limits, before, d, i, o)),
        Instruction::Compute { kind: Arithmetic::Multiply, d, i, o } => Some(multiplied(limits, before, d, i, o)),
        Instruction::Compute { kind: Arithmetic::Divide, d, i, o } => divided(before, d, i, o),
        Instruction::DivMod { q, i, r, o } => divided_with_rest(before, q, i, r, o),
        _ => Some(before.clone()),
    }
}

/// x − y ≥ b.
fn difference(x: usize, y: usize, b: Whole) -> Stripe {
    Stripe { x, a: 1, y, z: None, b }
}

fn names(stripe: &Stripe, v: usize) -> bool {
    stripe.x == v || stripe.y == v || stripe.z == Some(v)
}

fn range_of(known: &Known, o: Operand) -> Range {
    match o {
        Operand::Variable(v) => known.ranges[v],
        Operand::Number(number) => Range::only(number),
    }
}

/// d takes the range, its stripes are dropped, and new ones are added.
fn written(before: &Known, d: usize, range: Range, new: &[Stripe]) -> Known {
    let mut after = before.clone();
    after.ranges[d] = range;
    after.stripes.retain(|stripe| !names(stripe, d));
    after.stripes.extend_from_slice(new);
    after
}

fn copied(before: &Known, d: usize, i: usize) -> Known {
    if d == i {
        return before.clone();
    }
    written(before, d, before.ranges[i], &[difference(d, i, 0), difference(i, d, 0)])
}

fn added(limits: Limits, before: &Known, d: usize, i: usize, o: Operand) -> Known {
    let (left, right) = (before.ranges[i], range_of(before, o));
    if left.hi + right.hi > MAX {
        return written(before, d, Range::REGISTER, &[]);
    }
    let sum = Range { lo: left.lo + right.lo, hi: left.hi + right.hi };
    match o {
        Operand::Number(number) => moved(limits, before, d, i, sum, number),
        Operand::Variable(v) if d != i && d != v => {
            written(before, d, sum, &[Stripe { x: d, a: 1, y: i, z: Some(v), b: 0 }])
        }
        Operand::Variable(_) => written(before, d, sum, &[]),
    }
}

fn subtracted(limits: Limits, before: &Known, d: usize, i: usize, o: Operand) -> Known {
    let (left, right) = (before.ranges[i], range_of(before, o));
    if left.lo < right.hi {
        return written(before, d, Range::REGISTER, &[]);
    }
    let rest = Range { lo: left.lo - right.hi, hi: left.hi - right.lo };
    match o {
        Operand::Number(number) => moved(limits, before, d, i, rest, -number),
        Operand::Variable(v) if d != i && d != v => {
            written(before, d, rest, &[Stripe { x: i, a: 1, y: d, z: Some(v), b: 0 }])
        }
        Operand::Variable(_) => written(before, d, rest, &[]),
    }
}

/// d becomes i + by, without wrapping.
fn moved(limits: Limits, before: &Known, d: usize, i: usize, range: Range, by: Whole) -> Known {
    if d != i {
        return written(before, d, range, &[difference(d, i, by), difference(i, d, -by)]);
    }
    let mut after = before.clone();
    after.ranges[d] = range;
    for stripe in &mut after.stripes {
        stripe.b += shift(stripe, d, by);
    }
    after.stripes.retain(|stripe| limits.has_bound(stripe.b));
    after
}

/// How far x − a × (y + z) moves when d grows by `by`.
fn shift(stripe: &Stripe, d: usize, by: Whole) -> Whole {
    let mut shift = 0;
    if stripe.x == d {
        shift += by;
    }
    if stripe.y == d {
        shift -= stripe.a * by;
    }
    if stripe.z == Some(d) {
        shift -= stripe.a * by;
    }
    shift
}

fn multiplied(limits: Limits, before: &Known, d: usize, i: usize, o: Operand) -> Known {
    let (left, right) = (before.ranges[i], range_of(before, o));
    if left.hi * right.hi > MAX {
        return written(before, d, Range::REGISTER, &[]);
    }
    let product = Range { lo: left.lo * right.lo, hi: left.hi * right.hi };
    match o {
        Operand::Number(number) if limits.has_scale(number) && d != i => {
            written(before, d, product, &[Stripe { x: d, a: number, y: i, z: None, b: 0 }])
        }
        _ => written(before, d, product, &[]),
    }
}

fn divided(before: &Known, d: usize, i: usize, o: Operand) -> Option<Known> {
    let (left, right) = (before.ranges[i], range_of(before, o));
    if right.hi == 0 {
        return None;
    }
    let quotient = Range { lo: nearest(left.lo, right.hi), hi: nearest(left.hi, right.lo.max(1)) };
    Some(written(before, d, quotient, &[]))
}

/// Both ranges are made before either is written, since q or r may be i or o.
fn divided_with_rest(before: &Known, q: usize, i: usize, r: usize, o: Operand) -> Option<Known> {
    let (left, right) = (before.ranges[i], range_of(before, o));
    if right.hi == 0 {
        return None;
    }
    let quotient = Range { lo: rounded_down(left.lo, right.hi), hi: rounded_down(left.hi, right.lo.max(1)) };
    let remainder = Range { lo: 0, hi: left.hi.min(right.hi - 1) };
    Some(written(&written(before, q, quotient, &[]), r, remainder, &[]))
}

/// i < o held.
fn less(before: &Known, i: usize, o: Operand) -> Known {
    let (left, right) = (before.ranges[i], range_of(before, o));
    let mut after = before.clone();
    lower_hi(&mut after, i, right.hi - 1);
    if let Operand::Variable(v) = o {
        raise_lo(&mut after, v, left.lo + 1);
        after.stripes.push(difference(v, i, 1));
    }
    after
}

/// i ≥ o held.
fn not_less(before: &Known, i: usize, o: Operand) -> Known {
    let (left, right) = (before.ranges[i], range_of(before, o));
    let mut after = before.clone();
    raise_lo(&mut after, i, right.lo);
    if let Operand::Variable(v) = o {
        lower_hi(&mut after, v, left.hi);
        after.stripes.push(difference(i, v, 0));
    }
    after
}

fn equal(before: &Known, i: usize, o: Operand) -> Known {
    let (left, right) = (before.ranges[i], range_of(before, o));
    let overlap = Range { lo: left.lo.max(right.lo), hi: left.hi.min(right.hi) };
    let mut after = before.clone();
    after.ranges[i] = overlap;
    if let Operand::Variable(v) = o {
        after.ranges[v] = overlap;
        after.stripes.extend([difference(v, i, 0), difference(i, v, 0)]);
    }
    after
}

fn not_equal(before: &Known, i: usize, o: Operand) -> Known {
    let (left, right) = (before.ranges[i], range_of(before, o));
    let mut after = before.clone();
    if right.lo != right.hi {
        return after;
    }
    if left.lo == right.lo {
        after.ranges[i].lo = left.lo + 1;
    }
    if left.hi == right.lo {
        after.ranges[i].hi = left.hi - 1;
    }
    after
}

fn lower_hi(known: &mut Known, v: usize, hi: Whole) {
    known.ranges[v].hi = known.ranges[v].hi.min(hi);
}

fn raise_lo(known: &mut Known, v: usize, lo: Whole) {
    known.ranges[v].lo = known.ranges[v].lo.max(lo);
}

//! Divisions whose quotients lie at and beside a half: of one value by one value, and of ranges whose ends round
//! differently. The claims after them stand at and beside the ends of the quotient's range.

use super::{pieces, probes};
use crate::draft::{Draft, DraftPoint};
use crate::random::Random;
use reference::{
    edges, Arithmetic, Claim, Edge, Instruction, Operand, Range, Stripe, Whole, MAX, REGISTERS, RESULTS_SIZE,
    SIZE_LIMIT, TRAYS_SIZE,
};

const ODD: [Whole; 12] = [1, 1, 1, 3, 3, 5, 7, 101, 65_535, MAX - 2, MAX, MAX];
const EVEN: [Whole; 11] = [2, 2, 2, 4, 4, 6, 10, 100, 65_536, 1 << 31, MAX - 1];

/// A divisor above 0.
pub fn divisor(random: &mut Random) -> Whole {
    match random.below(10) {
        0..=3 => random.pick(&ODD),
        4..=7 => random.pick(&EVEN),
        8 => random.between(1, 300),
        _ => random.between(1, MAX),
    }
}

/// A dividend: 0, the greatest, a multiple of the divisor, or a multiple and a half, one less or one more.
pub fn dividend(random: &mut Random, divisor: Whole) -> Whole {
    let multiple = multiple(random, divisor);
    let half = multiple + divisor / 2;
    let value = match random.below(12) {
        0 => 0,
        1 => MAX,
        2 => multiple,
        _ => half + random.pick(&[-1, 0, 0, 1]),
    };
    value.clamp(0, MAX)
}

/// A multiple of the divisor, small, greatest, or any.
pub(super) fn multiple(random: &mut Random, divisor: Whole) -> Whole {
    let most = MAX / divisor;
    let any = random.between(0, most);
    divisor * random.pick(&[0, 0, 1, 2, 3, any, most - 1, most]).clamp(0, most)
}

/// A division, with the ranges of what is divided and of what divides.
struct Division {
    d: usize,
    i: usize,
    o: Operand,
    of: Range,
    by: Range,
}

/// Both ranges have one value, so that the quotient has one too.
pub fn of_values(random: &mut Random) -> Vec<Vec<u8>> {
    let divisor = if random.percent(8) { 0 } else { divisor(random) };
    let (of, by) = (Range::only(dividend(random, divisor.max(1))), Range::only(divisor));
    let (i, o) = (or_size(random, 0, TRAYS_SIZE, of), or_size(random, 1, RESULTS_SIZE, by));
    let o = if random.percent(40) { Operand::Number(divisor) } else { Operand::Variable(o) };
    let d = random.pick(&[2, i, 1]).min(REGISTERS - 1);
    vec![asked(random, &Division { d, i, o, of, by })]
}

/// Ranges of several values and of one, and divisors that may be 0 or can only be 0.
pub fn of_ranges(random: &mut Random) -> Vec<Vec<u8>> {
    let by = divisors(random);
    let same = random.percent(6);
    let of = if same { by } else { dividends(random, by) };
    let o = or_size(random, 1, RESULTS_SIZE, by);
    let i = if same { o } else { or_size(random, 0, TRAYS_SIZE, of) };
    let number = by.lo == by.hi && random.percent(50);
    let o = if number { Operand::Number(by.lo) } else { Operand::Variable(o) };
    let d = random.pick(&[2, i, 1]).min(REGISTERS - 1);
    vec![asked(random, &Division { d, i, o, of, by })]
}

/// A register, or a size where the range has no other values than a size.
pub(super) fn or_size(random: &mut Random, register: usize, size: usize, range: Range) -> usize {
    if range.lo.max(range.hi) <= SIZE_LIMIT && random.percent(15) {
        size
    } else {
        register
    }
}

pub(super) fn divisors(random: &mut Random) -> Range {
    let (one, other) = (divisor(random), divisor(random));
    match random.below(20) {
        0..=3 => Range::only(one),
        4..=8 => Range { lo: one, hi: (one + random.between(1, 2)).min(MAX) },
        9..=14 => Range { lo: one.min(other), hi: one.max(other) },
        15 | 16 => Range { lo: one, hi: MAX },
        17 | 18 => Range { lo: 0, hi: one },
        _ => Range::only(0),
    }
}

/// Ends near a half of the divisor that each is divided by.
fn dividends(random: &mut Random, by: Range) -> Range {
    let (lo, hi) = (dividend(random, by.hi.max(1)), dividend(random, by.lo.max(1)));
    with_ends(random, lo, hi)
}

/// From the one to the other, or with one of the two ends alone.
pub(super) fn with_ends(random: &mut Random, lo: Whole, hi: Whole) -> Range {
    match random.below(20) {
        0..=3 => Range::only(random.pick(&[lo, hi])),
        4..=8 => Range { lo, hi: (lo + 1).min(MAX) },
        9 => Range { lo: 0, hi },
        10 => Range { lo, hi: MAX },
        _ => Range { lo: lo.min(hi), hi: lo.max(hi) },
    }
}

/// The division with claims before and after it.
fn asked(random: &mut Random, division: &Division) -> Vec<u8> {
    let Division { d, i, o, of, by } = *division;
    let divide = Instruction::Compute { kind: Arithmetic::Divide, d, i, o };
    let (mut draft, edge) = divided(random, divide, i, of, by);
    claim_after(random, draft.push(Instruction::Stop), division, &edge);
    draft.text()
}

/// A division of i behind the claims of its ranges, and what is known along its edge.
pub(super) fn divided(random: &mut Random, divide: Instruction, i: usize, of: Range, by: Range) -> (Draft, Edge) {
    let mut draft = Draft::default();
    let point = draft.push(divide);
    claim_range(random, point, i, of);
    if let Some(Operand::Variable(o)) = divide.divisor() {
        claim_range(random, point, o, by);
    }
    let edge = edges(0, &point.instruction, &point.known()).remove(0);
    (draft, edge)
}

/// Both ends; one that is no other than unclaimed may be left out.
pub(super) fn claim_range(random: &mut Random, point: &mut DraftPoint, v: usize, range: Range) {
    if range.lo > 0 || random.percent(50) {
        point.claim(Claim::Least { v, value: range.lo });
    }
    if range.hi < pieces::greatest(v) || random.percent(50) {
        point.claim(Claim::Most { v, value: range.hi });
    }
}

/// Each end as it is, tighter and wider by 1, and as it would be rounded down; where the edge is impossible, anything.
fn claim_after(random: &mut Random, point: &mut DraftPoint, division: &Division, edge: &Edge) {
    let Division { d, i, of, by, .. } = *division;
    let Some(known) = &edge.known else {
        return point.claim(Claim::Least { v: d, value: random.pick(&[1, of.lo, MAX]) });
    };
    let quotient = known.ranges[d];
    let least = random.pick(&[quotient.lo, quotient.lo, quotient.lo + 1, quotient.lo - 1, of.lo / by.hi.max(1)]);
    let most = random.pick(&[quotient.hi, quotient.hi, quotient.hi - 1, quotient.hi + 1, of.hi / by.lo.max(1)]);
    claim_often(random, point, Claim::Least { v: d, value: least });
    claim_often(random, point, Claim::Most { v: d, value: most });
    match random.below(8) {
        0 => point.claim(Claim::Stripe(Stripe { x: d, a: 1, y: i, z: None, b: least - known.ranges[i].hi })),
        1 => point.claim(Claim::Stripe(Stripe { x: i, a: 3, y: d, z: None, b: known.ranges[i].lo - 3 * most })),
        2 => claim_range(random, point, i, of),
        _ => {}
    }
}

/// Claims an end of a register's range more often than not, unless it is outside its limits.
pub(super) fn claim_often(random: &mut Random, point: &mut DraftPoint, claim: Claim) {
    if random.percent(70) && probes::within_limits(&claim) {
        point.claim(claim);
    }
}

//! Divisions with remainder: dividend and divisor in every way that they can meet the two registers written, of one
//! value, of ranges, and with stripes. The claims after them stand at and beside the ends of both ranges.

use super::quotients::{claim_often, claim_range, divided, divisor, divisors, multiple, or_size, with_ends};
use super::{pieces, probes};
use crate::draft::DraftPoint;
use crate::random::Random;
use reference::{Claim, Edge, Instruction, Operand, Range, Stripe, Whole, MAX, RESULTS_SIZE, TRAYS_SIZE};

/// Registers for the quotient, the remainder, and a dividend and a divisor that are neither.
const APART: [[usize; 4]; 4] = [[0, 1, 2, 3], [3, 2, 1, 0], [15, 7, 0, 8], [1, 0, 15, 14]];

/// A division, with the ranges of what is divided and of what divides.
struct Division {
    q: usize,
    i: usize,
    r: usize,
    o: Operand,
    of: Range,
    by: Range,
}

/// Any of the ways in which i and o can be q, r, each other, or none of them; where o is i, so is its range.
fn division(random: &mut Random, by: Range, dividends: fn(&mut Random, Range) -> Range) -> Division {
    let [q, r, free, other] = random.pick(&APART);
    let i = random.pick(&[q, r, free]);
    if by.lo == by.hi && random.percent(40) {
        return Division { q, i, r, o: Operand::Number(by.lo), of: dividends(random, by), by };
    }
    let o = random.pick(&[q, r, i, other]);
    let of = if i == o { by } else { dividends(random, by) };
    let sized = i == free && o == other;
    let i = if sized { or_size(random, i, TRAYS_SIZE, of) } else { i };
    let o = if sized { or_size(random, o, RESULTS_SIZE, by) } else { o };
    Division { q, i, r, o: Operand::Variable(o), of, by }
}

/// A dividend: 0, 1, the greatest two, or a multiple of the divisor and of another one nothing, a part, or nearly all.
pub fn dividend(random: &mut Random, divisor: Whole) -> Whole {
    let rest = random.pick(&[0, 0, 1, divisor / 2, divisor - 2, divisor - 1, divisor - 1]);
    let multiple = multiple(random, divisor);
    match random.below(10) {
        0 => random.pick(&[0, 1]),
        1 => MAX - random.pick(&[0, 0, 1]),
        _ => (multiple + rest).clamp(0, MAX),
    }
}

fn of_one_value(random: &mut Random, by: Range) -> Range {
    Range::only(dividend(random, by.lo.max(1)))
}

/// Ends at and beside multiples, and high ends at and beside the greatest remainder, where hi(i) begins to count.
fn dividends(random: &mut Random, by: Range) -> Range {
    if random.percent(25) {
        let hi = (by.hi - 1 + random.pick(&[-1, 0, 0, 1])).clamp(0, MAX);
        return Range { lo: random.pick(&[0, 0, hi / 2, hi]), hi };
    }
    let (lo, hi) = (dividend(random, by.hi.max(1)), dividend(random, by.lo.max(1)));
    with_ends(random, lo, hi)
}

/// Both ranges have one value.
pub fn of_values(random: &mut Random) -> Vec<Vec<u8>> {
    let by = Range::only(if random.percent(8) { 0 } else { divisor(random) });
    let division = division(random, by, of_one_value);
    vec![asked(random, &division)]
}

/// Ranges of several values and of one, and divisors that may be 0 or can only be 0.
pub fn of_ranges(random: &mut Random) -> Vec<Vec<u8>> {
    let by = divisors(random);
    let division = division(random, by, dividends);
    vec![asked(random, &division)]
}

/// One division among stripes that name its registers, and stripes that do not.
pub fn of_stripes(random: &mut Random) -> Vec<Vec<u8>> {
    let pool = pieces::pool_of_two(random);
    probes::edge_over(random, &pool, |random, pool, _| pieces::div_mod(random, pool))
}

/// One to five points with random claims, some of them divisions with remainder.
pub fn among_points(random: &mut Random) -> Vec<Vec<u8>> {
    let pool = pieces::pool_of_two(random);
    probes::jumble_over(random, &pool, |random, pool, target| {
        if random.percent(40) {
            pieces::div_mod(random, pool)
        } else {
            pieces::instruction(random, pool, target)
        }
    })
}

/// The division with claims before and after it.
fn asked(random: &mut Random, division: &Division) -> Vec<u8> {
    let Division { q, i, r, o, of, by } = *division;
    let (mut draft, edge) = divided(random, Instruction::DivMod { q, i, r, o }, i, of, by);
    claim_after(random, draft.push(Instruction::Stop), division, &edge);
    draft.text()
}

fn nearest(i: Whole, o: Whole) -> Whole {
    (2 * i + o) / (2 * o)
}

/// Each end as it is, tighter and wider by 1, and as slips would have it: a quotient to the nearest, a remainder up to
/// the divisor or up to the dividend alone. Where the edge is impossible, anything.
fn claim_after(random: &mut Random, point: &mut DraftPoint, division: &Division, edge: &Edge) {
    let Division { q, i, r, of, by, .. } = *division;
    let Some(known) = &edge.known else {
        let v = random.pick(&[q, r]);
        return point.claim(Claim::Least { v, value: random.pick(&[1, of.lo, MAX]) });
    };
    let Range { lo, hi } = known.ranges[q];
    let least = random.pick(&[lo, lo, lo + 1, lo - 1, nearest(of.lo, by.hi)]);
    let most = random.pick(&[hi, hi, hi - 1, hi + 1, nearest(of.hi, by.lo.max(1))]);
    let rest = known.ranges[r].hi;
    let most_rest = random.pick(&[rest, rest, rest, rest - 1, rest + 1, by.hi, by.hi - 1, of.hi]);
    claim_often(random, point, Claim::Least { v: q, value: least });
    claim_often(random, point, Claim::Most { v: q, value: most });
    claim_often(random, point, Claim::Most { v: r, value: most_rest });
    match random.below(10) {
        0 => point.claim(Claim::Least { v: r, value: 1 }),
        1 => point.claim(Claim::Stripe(Stripe { x: q, a: 1, y: r, z: None, b: least - rest })),
        2 => point.claim(Claim::Stripe(Stripe { x: i, a: 3, y: q, z: Some(r), b: -3 * (most + most_rest) })),
        3 => claim_range(random, point, i, of),
        _ => {}
    }
}

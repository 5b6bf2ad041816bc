//! A checker that is wrong on purpose is found out, and the listing that shows it is small.

mod found;
mod wrong;

use found::found;
use reference::{
    check, edges, goal_follows, read, Answer, Arithmetic, Claim, Edge, Instruction, Known, Operand, Range, Stripe,
    Whole, MAX,
};
use trials::all;
use wrong::{names, range_of, weakened, with_rule};

fn claim_on_line(listing: &[u8], line: u64) -> Claim {
    let claims = read(listing).expect("it was read before").points.into_iter().flat_map(|point| point.claims);
    claims.into_iter().find(|claim| claim.line == line).expect("the second place is a claim").claim
}

/// A wrong checker that lets four links pass.
fn four_links(listing: &[u8]) -> Answer {
    weakened(listing, 14, &|at, instruction, known, second| {
        let Claim::Stripe(goal) = claim_on_line(listing, second) else { return false };
        edges(at, instruction, known).iter().any(|Edge { known, .. }| {
            known.as_ref().is_some_and(|known| !goal_follows(known, &goal, 3) && goal_follows(known, &goal, 4))
        })
    })
}

/// A wrong checker that keeps the stripes whose y is written, where x is not.
fn keeps_stripes_by_y(listing: &[u8]) -> Answer {
    weakened(listing, 14, &|_, instruction, known, second| {
        let Instruction::Set { d, .. } = *instruction else { return false };
        let Claim::Stripe(goal) = claim_on_line(listing, second) else { return false };
        let kept = |stripe: &Stripe| stripe.y == d && stripe.x != d && *stripe == goal;
        known.stripes.iter().any(kept)
    })
}

/// A wrong checker that takes any register for a divisor where its range is not just 0.
fn divides_by_what_may_be_zero(listing: &[u8]) -> Answer {
    weakened(listing, 12, &|_, instruction, known, _| match *instruction {
        Instruction::Compute { o: Operand::Variable(v), .. } => known.ranges[v].hi > 0,
        _ => false,
    })
}

/// The range of a quotient, from those of the dividend and the divisor; none where no step is possible.
type QuotientRange<'a> = &'a dyn Fn(Range, Range) -> Option<Range>;

/// The reference's answer, with another range after divisions.
fn with_quotients(listing: &[u8], range: QuotientRange) -> Answer {
    with_rule(listing, &|instruction, before| {
        let Instruction::Compute { kind: Arithmetic::Divide, d, i, o } = *instruction else { return None };
        Some(divided(before, d, i, o, range))
    })
}

fn divided(before: &Known, d: usize, i: usize, o: Operand, range: QuotientRange) -> Option<Known> {
    let mut after = before.clone();
    after.ranges[d] = range(before.ranges[i], range_of(before, o))?;
    after.stripes.retain(|stripe| !names(stripe, d));
    Some(after)
}

fn nearest(i: Whole, o: Whole) -> Whole {
    (2 * i + o) / (2 * o)
}

/// The range with both ends by this quotient, and right in everything else.
fn ends_by(quotient: fn(Whole, Whole) -> Whole) -> impl Fn(Range, Range) -> Option<Range> {
    move |of, by| (by.hi != 0).then(|| Range { lo: quotient(of.lo, by.hi), hi: quotient(of.hi, by.lo.max(1)) })
}

const VALUES: &str = "quotients of one value";
const RANGES: &str = "quotients of ranges";

/// The numbers of the reference and of the checker with a wrong range, on a small listing of the family.
fn quotient_found(part: &str, range: QuotientRange) -> (u64, u64) {
    let difference = found(part, &|listing| with_quotients(listing, range));
    // a range each for dividend and divisor, a division, a claim and STOP
    assert!(difference.listing.len() <= 7 * 40, "{difference}");
    (difference.left.answer.number, difference.right.answer.number)
}

/// A wrong checker that lets claims stand in any order.
fn any_order(listing: &[u8]) -> Answer {
    match check(listing) {
        Answer { number: 6, .. } => Answer { number: 0, place: 0, second: 0, points: 1 },
        answer => answer,
    }
}

#[test]
fn a_fourth_link_is_found() {
    let difference = found("chains", &four_links);
    assert_eq!(difference.left.answer.number, 14);
    // three links at most leave four stripes, a goal, and two instructions
    assert!(difference.listing.len() <= 9 * 40, "{} bytes", difference.listing.len());
}

#[test]
fn a_stripe_kept_too_long_is_found() {
    let difference = found("one edge", &keeps_stripes_by_y);
    assert_eq!((difference.left.answer.number, difference.right.answer.number), (14, 0));
    assert_eq!(difference.listing.len(), 4 * 40);
}

#[test]
fn a_zero_divisor_is_found() {
    let difference = found("random points", &divides_by_what_may_be_zero);
    assert_eq!(difference.left.answer.number, 12);
    assert_eq!(difference.listing, lines::listing("DIVF 0 0 _ _ 0 0; STOP"));
}

#[test]
fn claims_out_of_order_are_found() {
    let difference = found("order of claims", &any_order);
    assert_eq!(difference.left.answer.number, 6);
    assert_eq!(difference.listing.len(), 2 * 40);
}

/// What is planted below differs from the reference in the range of quotients alone.
#[test]
fn the_right_range_of_quotients_makes_no_difference() {
    let right = ends_by(nearest);
    for family in all().into_iter().map(|family| family.thinned(10)) {
        for listing in (0..family.batches).flat_map(|batch| family.batch(batch)) {
            assert_eq!(check(&listing), with_quotients(&listing, &right));
        }
    }
}

#[test]
fn ends_rounded_down_are_found() {
    let down = ends_by(|i, o| i / o);
    quotient_found(VALUES, &down);
    quotient_found(RANGES, &down);
}

#[test]
fn ends_where_a_half_goes_down_are_found() {
    let half_down = ends_by(|i, o| (2 * i + o - 1) / (2 * o));
    quotient_found(VALUES, &half_down);
    quotient_found(RANGES, &half_down);
}

#[test]
fn ends_by_a_divisor_that_is_not_doubled_are_found() {
    let not_doubled = ends_by(|i, o| (2 * i + o) / o);
    quotient_found(VALUES, &not_doubled);
    quotient_found(RANGES, &not_doubled);
}

#[test]
fn ends_from_a_sum_of_32_bits_are_found() {
    let doubled = ends_by(|i, o| (2 * i + o) % (MAX + 1) / (2 * o));
    let halved = ends_by(|i, o| (i + o / 2) % (MAX + 1) / o);
    for part in [VALUES, RANGES] {
        quotient_found(part, &doubled);
        quotient_found(part, &halved);
    }
}

#[test]
fn a_high_end_by_the_greatest_divisor_is_found() {
    let high = |of: Range, by: Range| {
        let right = ends_by(nearest)(of, by)?;
        Some(Range { hi: nearest(of.hi, by.hi), ..right })
    };
    assert_eq!(quotient_found(RANGES, &high), (14, 0));
}

#[test]
fn a_low_end_by_the_least_divisor_is_found() {
    let low = |of: Range, by: Range| {
        let right = ends_by(nearest)(of, by)?;
        Some(Range { lo: nearest(of.lo, by.lo.max(1)), ..right })
    };
    assert_eq!(quotient_found(RANGES, &low), (14, 0));
}

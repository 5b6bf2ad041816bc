//! A checker that is wrong on purpose about divisions with remainder is found out, and the listing that shows it is small.

mod found;
mod mended;
mod wrong;

use found::found;
use lines::LINE;
use mended::mended;
use reference::refusals::{
    BAD_BYTE, BAD_ORDER, BAD_SHAPE, DIVISOR_MAY_BE_ZERO, EMPTY_START, ENDS_IN_CLAIM, ONE_REGISTER_TWICE, OUT_OF_LIMITS,
};
use reference::{check, Answer, Instruction, Known, Operand, Range, Whole};
use std::ops::RangeInclusive;
use trials::shrink::number;
use trials::{all, Difference};
use wrong::{names, range_of, weakened, with_rule};

const VALUES: &str = "remainders of one value";
const RANGES: &str = "remainders of ranges";
const STRIPES: &str = "remainders with stripes";
const TWICE: &str = "one register for quotient and remainder";

/// The range of a result, from those of the dividend and the divisor.
type Ends = fn(Range, Range) -> Range;

/// How a checker treats divisions with remainder.
#[derive(Clone, Copy)]
struct Rule {
    quotient: Ends,
    remainder: Ends,
    /// Whether the stripes of the one and of the other go.
    drops: [bool; 2],
    /// Whether the remainder's range is written first.
    remainder_first: bool,
    /// Whether those of the dividend and of the divisor are looked up again before the second is made.
    again: [bool; 2],
}

const RIGHT: Rule = Rule {
    quotient: |of, by| Range { lo: of.lo / by.hi, hi: of.hi / by.lo.max(1) },
    remainder: |of, by| Range { lo: 0, hi: of.hi.min(by.hi - 1) },
    drops: [true, true],
    remainder_first: false,
    again: [false, false],
};

fn with_remainders(listing: &[u8], rule: &Rule) -> Answer {
    with_rule(listing, &|instruction, before| {
        let Instruction::DivMod { q, i, r, o } = *instruction else { return None };
        Some(divided(rule, before, [q, i, r], o))
    })
}

fn divided(rule: &Rule, before: &Known, [q, i, r]: [usize; 3], o: Operand) -> Option<Known> {
    let (of, by) = (before.ranges[i], range_of(before, o));
    if by.hi == 0 {
        return None;
    }
    let at_least_one = |by: Range| Range { hi: by.hi.max(1), ..by };
    let mut writes = [(q, rule.quotient), (r, rule.remainder)];
    if rule.remainder_first {
        writes.reverse();
    }
    let [(first, ends), (second, other_ends)] = writes;
    let mut after = before.clone();
    after.ranges[first] = ends(of, at_least_one(by));
    let of = if rule.again[0] { after.ranges[i] } else { of };
    let by = if rule.again[1] { range_of(&after, o) } else { by };
    after.ranges[second] = other_ends(of, at_least_one(by));
    let [of_quotient, of_remainder] = rule.drops;
    after.stripes.retain(|stripe| !(of_quotient && names(stripe, q) || of_remainder && names(stripe, r)));
    Some(after)
}

fn numbers(difference: &Difference) -> (u64, u64) {
    (difference.left.answer.number, difference.right.answer.number)
}

/// The numbers of the reference and of the checker with a wrong rule, on a small listing of the family.
#[track_caller]
fn rule_found(part: &str, rule: Rule) -> (u64, u64) {
    let difference = found(part, &|listing| with_remainders(listing, &rule));
    // a range each for dividend and divisor, a division, a claim and STOP
    assert!(difference.listing.len() <= 7 * LINE, "{difference}");
    numbers(&difference)
}

/// What is planted below differs from the reference in one thing alone.
#[test]
fn the_right_rule_makes_no_difference() {
    for family in all().into_iter().map(|family| family.thinned(10)) {
        for listing in (0..family.batches).flat_map(|batch| family.batch(batch)) {
            assert_eq!(check(&listing), with_remainders(&listing, &RIGHT));
        }
    }
}

#[test]
fn a_remainder_up_to_the_divisor_is_found() {
    let rule = Rule { remainder: |of, by| Range { lo: 0, hi: of.hi.min(by.hi) }, ..RIGHT };
    assert_eq!(rule_found(VALUES, rule), (0, 14));
    assert_eq!(rule_found(RANGES, rule), (0, 14));
}

#[test]
fn a_remainder_by_the_divisor_alone_is_found() {
    let rule = Rule { remainder: |_, by| Range { lo: 0, hi: by.hi - 1 }, ..RIGHT };
    assert_eq!(rule_found(VALUES, rule), (0, 14));
    assert_eq!(rule_found(RANGES, rule), (0, 14));
}

#[test]
fn a_remainder_by_the_dividend_alone_is_found() {
    let rule = Rule { remainder: |of, _| Range { lo: 0, hi: of.hi }, ..RIGHT };
    assert_eq!(rule_found(VALUES, rule), (0, 14));
    assert_eq!(rule_found(RANGES, rule), (0, 14));
}

#[test]
fn a_remainder_by_the_least_divisor_is_found() {
    let rule = Rule { remainder: |of, by| Range { lo: 0, hi: of.hi.min((by.lo - 1).max(0)) }, ..RIGHT };
    assert_eq!(rule_found(RANGES, rule), (14, 0));
}

/// Of one value by one value, the remainder is known; its rule does not say so.
#[test]
fn a_remainder_of_one_value_is_found() {
    let exact = |of: Range, by: Range| match (of.lo == of.hi, by.lo == by.hi) {
        (true, true) => Range::only(of.lo % by.lo),
        _ => (RIGHT.remainder)(of, by),
    };
    assert_eq!(rule_found(VALUES, Rule { remainder: exact, ..RIGHT }), (14, 0));
}

#[test]
fn a_quotient_to_the_nearest_is_found() {
    let nearest: Ends = |of, by| {
        let nearest = |i: Whole, o: Whole| (2 * i + o) / (2 * o);
        Range { lo: nearest(of.lo, by.hi), hi: nearest(of.hi, by.lo.max(1)) }
    };
    rule_found(VALUES, Rule { quotient: nearest, ..RIGHT });
    rule_found(RANGES, Rule { quotient: nearest, ..RIGHT });
}

#[test]
fn ends_by_the_other_end_of_the_divisor_are_found() {
    let high: Ends = |of, by| Range { lo: of.lo / by.hi, hi: of.hi / by.hi };
    assert_eq!(rule_found(RANGES, Rule { quotient: high, ..RIGHT }), (14, 0));
    let low: Ends = |of, by| Range { lo: of.lo / by.lo.max(1), hi: of.hi / by.lo.max(1) };
    assert_eq!(rule_found(RANGES, Rule { quotient: low, ..RIGHT }), (14, 0));
}

#[test]
fn ends_taken_after_the_first_write_are_found() {
    for remainder_first in [false, true] {
        // the first overwrites the dividend, and the divisor
        for again in [[true, false], [false, true]] {
            rule_found(VALUES, Rule { remainder_first, again, ..RIGHT });
            rule_found(RANGES, Rule { remainder_first, again, ..RIGHT });
        }
    }
}

#[test]
fn stripes_dropped_for_one_register_alone_are_found() {
    for drops in [[true, false], [false, true]] {
        assert_eq!(rule_found(STRIPES, Rule { drops, ..RIGHT }), (14, 0));
    }
}

#[test]
fn a_divisor_that_is_not_owed_is_found() {
    let any_divisor = |listing: &[u8]| {
        weakened(listing, DIVISOR_MAY_BE_ZERO, &|_, instruction, _, _| {
            matches!(instruction, Instruction::DivMod { .. })
        })
    };
    for part in [VALUES, RANGES, STRIPES] {
        assert_eq!(numbers(&found(part, &any_divisor)).0, DIVISOR_MAY_BE_ZERO);
    }
}

/// A wrong checker to which 19 is nothing.
fn knows_no_nineteen(listing: &[u8]) -> Answer {
    check(&mended(listing))
}

/// A wrong checker that makes these tests on every line before it comes to 19.
fn nineteen_after(tests: RangeInclusive<u64>, listing: &[u8]) -> Answer {
    let (answer, other) = (check(listing), knows_no_nineteen(listing));
    if answer.number == ONE_REGISTER_TWICE && tests.contains(&other.number) {
        other
    } else {
        answer
    }
}

/// A wrong checker that compares F1 and F3 of a DIVM before it makes the test of this number.
fn nineteen_before(first: u64, listing: &[u8]) -> Answer {
    let answer = check(listing);
    let line = listing.chunks_exact(LINE).nth(answer.place.saturating_sub(1) as usize);
    let same = |line: &[u8]| number(line, 0).is_some() && number(line, 0) == number(line, 2);
    match line {
        Some(line) if answer.number == first && line.starts_with(b"DIVM") && same(line) => {
            Answer { number: ONE_REGISTER_TWICE, ..answer }
        }
        _ => answer,
    }
}

#[test]
fn nineteen_not_tested_is_found() {
    for part in [TWICE, STRIPES, "some with remainders", "fields of DIVM"] {
        let difference = found(part, &knows_no_nineteen);
        assert_eq!(numbers(&difference).0, ONE_REGISTER_TWICE);
        assert!(difference.listing.len() <= 2 * LINE, "{difference}");
    }
}

#[test]
fn nineteen_after_what_other_lines_owe_is_found() {
    for tests in [BAD_BYTE..=OUT_OF_LIMITS, BAD_ORDER..=BAD_ORDER, ENDS_IN_CLAIM..=EMPTY_START] {
        let difference = found(TWICE, &|listing| nineteen_after(tests.clone(), listing));
        let (number, other) = numbers(&difference);
        assert!(number == ONE_REGISTER_TWICE && tests.contains(&other), "{difference}");
        assert!(difference.listing.len() <= 4 * LINE, "{difference}");
    }
}

#[test]
fn nineteen_before_four_or_five_is_found() {
    for first in [BAD_SHAPE, OUT_OF_LIMITS] {
        let difference = found(TWICE, &|listing| nineteen_before(first, listing));
        assert_eq!(numbers(&difference), (first, ONE_REGISTER_TWICE));
        assert_eq!(difference.listing.len(), LINE);
    }
}

#[test]
fn nineteen_without_its_line_is_found() {
    let no_place = |listing: &[u8]| match check(listing) {
        answer if answer.number == ONE_REGISTER_TWICE => Answer { place: 0, ..answer },
        answer => answer,
    };
    assert_eq!(found(TWICE, &no_place).listing.len(), LINE);
}

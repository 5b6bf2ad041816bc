//! A checker that is wrong on purpose about empty points is found out, and the listing that shows it is small.

mod found;
mod rule;

use found::found;
use lines::LINE;
use reference::refusals::{ACCESS_MAY_LEAVE, CLAIM_DOES_NOT_FOLLOW, DIVISOR_MAY_BE_ZERO, EMPTY_START};
use reference::{
    check, claim_follows, edges, goal_follows, read, read_line, Answer, ClaimLine, Edge, Instruction, Known, Line,
    Listing, Operand, Point, Range, Refusal, Stripe, LINKS, REGISTERS, RESULTS_SIZE, TRAYS_SIZE, VARIABLES,
};
use rule::{makes_no_difference, numbers_found};
use trials::shrink::{is_claim, write};

/// How a checker treats empty points. Each is right in all but one thing.
#[derive(Clone, Copy)]
struct Rule {
    /// Whether point 0 is turned back.
    start: fn(&Point) -> bool,
    /// Whether a point owes no more than what follows.
    is_empty: fn(&Point) -> bool,
    /// Whether an empty point owes a divisor, an access, and claims.
    owes: [bool; 3],
    /// Whether the claims of a point are owed.
    is_owed: fn(&Point) -> bool,
}

const RIGHT: Rule = Rule { start: Point::is_empty, is_empty: Point::is_empty, owes: [false; 3], is_owed: |_| true };

fn refused(number: u64, place: u64, second: u64) -> Answer {
    Answer { number, place, second, points: 0 }
}

fn judged(listing: &[u8], rule: &Rule) -> Answer {
    let points = match read_with_any_start(listing) {
        Ok(listing) => listing.points,
        Err(Refusal { number, place, second }) => return refused(number, place, second),
    };
    if (rule.start)(&points[0]) {
        return refused(EMPTY_START, points[0].line, 0);
    }
    let passes = Answer { number: 0, place: 0, second: 0, points: points.len() as u64 };
    (0..points.len()).find_map(|at| owed(&points, at, rule)).unwrap_or(passes)
}

/// The listing without the test of point 0.
fn read_with_any_start(listing: &[u8]) -> Result<Listing, Refusal> {
    let refusal = match read(listing) {
        Err(refusal) if refusal.number == EMPTY_START => refusal,
        other => return other,
    };
    let mut wider = listing.to_vec();
    let before = &mut wider[..(refusal.place as usize - 1) * LINE];
    before.chunks_mut(LINE).filter(|line| line.starts_with(b"LEAS")).for_each(|line| write(line, 5, "0"));
    let mut read = read(&wider).expect("no range of point 0 is empty any more");
    for ClaimLine { claim, line } in &mut read.points[0].claims {
        let Ok(Line::Claim(written)) = read_line(&listing[(*line as usize - 1) * LINE..][..LINE]) else { continue };
        *claim = written;
    }
    Ok(read)
}

fn owed(points: &[Point], at: usize, rule: &Rule) -> Option<Answer> {
    let point = &points[at];
    let known = Known::at(point);
    let [divisor, access, claims] = if (rule.is_empty)(point) { rule.owes } else { [true; 3] };
    if divisor && !divides_safely(&point.instruction, &known) {
        return Some(refused(DIVISOR_MAY_BE_ZERO, point.line, 0));
    }
    if access && !stays_inside(&point.instruction, &known) {
        return Some(refused(ACCESS_MAY_LEAVE, point.line, 0));
    }
    let owed = edges(at, &point.instruction, &known).into_iter().filter(|_| claims);
    owed.filter_map(|Edge { to, known }| known.map(|known| (&points[to], known)))
        .filter(|(next, _)| (rule.is_owed)(next))
        .find_map(|(next, known)| next.claims.iter().find(|line| !claim_follows(&known, &line.claim)))
        .map(|claim| refused(CLAIM_DOES_NOT_FOLLOW, point.line, claim.line))
}

fn divides_safely(instruction: &Instruction, known: &Known) -> bool {
    match instruction.divisor() {
        Some(Operand::Number(number)) => number > 0,
        Some(Operand::Variable(v)) => known.ranges[v].lo > 0,
        None => true,
    }
}

fn stays_inside(instruction: &Instruction, known: &Known) -> bool {
    let (x, a, y, b) = match *instruction {
        Instruction::Load { width, table, scale, i, offset, .. } => {
            (TRAYS_SIZE + table as usize, scale, i, offset + width)
        }
        Instruction::Store { width, scale, i, offset, .. } => (RESULTS_SIZE, scale, i, offset + width),
        _ => return true,
    };
    goal_follows(known, &Stripe { x, a, y, z: None, b }, LINKS)
}

/// Whether the range of some of these variables is empty, by some comparison.
fn some(point: &Point, variables: std::ops::Range<usize>, empty: fn(&Range) -> bool) -> bool {
    Known::at(point).ranges[variables].iter().any(empty)
}

const ONE: &str = "one point, empty or nearly so";
const OVERWRITTEN: &str = "an empty range that the step overwrites";
const LED_TO: &str = "what leads to an empty point";
const AMONG_POINTS: &str = "random points, some empty";
const START: &str = "point 0 empty or nearly so";
const SKIPPED: &str = "dead stretches that are led around";
const FLAWED: &str = "dead stretches with a flaw";
const ROUTINES: &str = "routines with dead stretches";

/// What leads past or to two points, the claims of each, and STOP behind them.
const FEW_LINES: usize = 8;

/// The numbers of the reference and of a wrong rule, on a small listing of the family.
#[track_caller]
fn rule_found(part: &str, rule: Rule) -> (u64, u64) {
    numbers_found(part, FEW_LINES, &|listing| judged(listing, &rule))
}

/// What is planted below differs from the reference in one thing alone.
#[test]
fn the_right_rule_makes_no_difference() {
    makes_no_difference(&|listing| judged(listing, &RIGHT));
}

#[test]
fn a_divisor_owed_at_an_empty_point_is_found() {
    let rule = Rule { owes: [true, false, false], ..RIGHT };
    for part in [ONE, OVERWRITTEN, AMONG_POINTS, SKIPPED, ROUTINES] {
        assert_eq!(rule_found(part, rule), (0, DIVISOR_MAY_BE_ZERO));
    }
}

#[test]
fn an_access_owed_at_an_empty_point_is_found() {
    let rule = Rule { owes: [false, true, false], ..RIGHT };
    for part in [ONE, AMONG_POINTS, SKIPPED, ROUTINES] {
        assert_eq!(rule_found(part, rule), (0, ACCESS_MAY_LEAVE));
    }
}

/// Along edges that are possible because the step overwrites what is empty.
#[test]
fn claims_owed_by_an_empty_point_are_found() {
    let rule = Rule { owes: [false, false, true], ..RIGHT };
    for part in [ONE, OVERWRITTEN] {
        assert_eq!(rule_found(part, rule), (0, CLAIM_DOES_NOT_FOLLOW));
    }
}

/// To which nothing leads but empty points, and which is to owe nothing for that.
#[test]
fn a_point_that_nothing_leads_to_taken_for_empty_is_found() {
    let wrong = |listing: &[u8]| {
        let Ok(read) = read(listing) else { return check(listing) };
        let led_to = |at: usize| {
            let leads = |from: usize, point: &Point| edges(from, &point.instruction, &Known::nothing());
            read.points.iter().enumerate().any(|(from, point)| leads(from, point).iter().any(|edge| edge.to == at))
        };
        let owing = (0..read.points.len()).filter(|&at| at == 0 || led_to(at));
        let passes = Answer { number: 0, place: 0, second: 0, points: read.points.len() as u64 };
        owing.into_iter().find_map(|at| owed(&read.points, at, &RIGHT)).unwrap_or(passes)
    };
    for part in [ONE, FLAWED] {
        assert_eq!(found(part, &wrong).right.answer.number, 0);
    }
}

#[test]
fn claims_of_an_empty_point_that_are_not_owed_are_found() {
    let rule = Rule { is_owed: |point| !point.is_empty(), ..RIGHT };
    for part in [LED_TO, AMONG_POINTS, FLAWED] {
        assert_eq!(rule_found(part, rule), (CLAIM_DOES_NOT_FOLLOW, 0));
    }
}

#[test]
fn an_empty_point_0_that_is_spared_is_found() {
    let rule = Rule { start: |_| false, ..RIGHT };
    assert_eq!(rule_found(START, rule), (EMPTY_START, 0));
    // and one that is turned back though it is not empty
    for start in [|point: &Point| some(point, 0..VARIABLES, |range| range.lo >= range.hi), contradicts_by_stripes] {
        assert_eq!(rule_found(START, Rule { start, ..RIGHT }).1, EMPTY_START);
    }
}

/// Empty only if all variables are, or if one end alone leaves nothing.
#[test]
fn emptiness_that_asks_too_much_is_found() {
    let all: fn(&Point) -> bool = |point| Known::at(point).ranges.iter().all(Range::is_empty);
    let by_two: fn(&Point) -> bool = |point| some(point, 0..VARIABLES, |range| range.lo > range.hi + 1);
    let by_one_end: fn(&Point) -> bool = |point| {
        let unclaimed = Known::nothing().ranges;
        Known::at(point).ranges.iter().zip(unclaimed).any(|(range, unclaimed)| range.lo > unclaimed.hi || range.hi < 0)
    };
    for is_empty in [all, by_two, by_one_end] {
        for part in [ONE, SKIPPED, ROUTINES] {
            let (right, wrong) = rule_found(part, Rule { is_empty, ..RIGHT });
            assert!(right == 0 && wrong > 0);
        }
        assert_eq!(rule_found(START, Rule { start: is_empty, ..RIGHT }).0, EMPTY_START);
    }
}

/// Without the sizes, one of them, or the first or the last register.
#[test]
fn variables_that_are_not_looked_at_are_found() {
    let without: [fn(&Point) -> bool; 5] = [
        |point| some(point, 0..REGISTERS, Range::is_empty),
        |point| some(point, 0..RESULTS_SIZE, Range::is_empty),
        |point| some(point, 0..TRAYS_SIZE, Range::is_empty) || some(point, RESULTS_SIZE..VARIABLES, Range::is_empty),
        |point| some(point, 1..VARIABLES, Range::is_empty),
        |point| some(point, 0..REGISTERS - 1, Range::is_empty) || some(point, TRAYS_SIZE..VARIABLES, Range::is_empty),
    ];
    for is_empty in without {
        for part in [ONE, SKIPPED] {
            let (right, wrong) = rule_found(part, Rule { is_empty, ..RIGHT });
            assert!(right == 0 && wrong > 0);
        }
        assert_eq!(rule_found(START, Rule { start: is_empty, ..RIGHT }), (EMPTY_START, 0));
    }
}

#[test]
fn one_value_taken_for_none_is_found() {
    let is_empty: fn(&Point) -> bool = |point| some(point, 0..VARIABLES, |range| range.lo >= range.hi);
    for part in [ONE, FLAWED] {
        let (right, wrong) = rule_found(part, Rule { is_empty, ..RIGHT });
        assert!(right > 0 && wrong == 0);
    }
}

/// A LEAS at the unclaimed high end, and a MOST at the unclaimed low end, with nothing against them.
#[test]
fn an_end_as_far_out_as_may_be_taken_for_empty_is_found() {
    let least: fn(&Range, Range) -> bool = |range, unclaimed| range.lo == unclaimed.hi && range.hi == unclaimed.hi;
    let most: fn(&Range, Range) -> bool = |range, unclaimed| range.hi == unclaimed.lo && range.lo == unclaimed.lo;
    let far_out = |point: &Point, far: fn(&Range, Range) -> bool| {
        Known::at(point).ranges.iter().zip(Known::nothing().ranges).any(|(range, unclaimed)| far(range, unclaimed))
    };
    for (far, line) in [(least, b"LEAS"), (most, b"MOST")] {
        let difference = found(ONE, &|listing| match (check(listing), read(listing)) {
            (answer @ Answer { number: 12..=14, place, .. }, Ok(read)) => {
                let point = read.points.iter().find(|point| point.line == place).expect("its line");
                if point.is_empty() || !far_out(point, far) {
                    return answer;
                }
                Answer { number: 0, place: 0, second: 0, points: read.points.len() as u64 }
            }
            (answer, _) => answer,
        });
        assert!(difference.listing.chunks(LINE).filter(|other| is_claim(other)).any(|other| other.starts_with(line)));
    }
}

/// Whether a stripe of the point holds of no values in its ranges, or two of them contradict each other.
fn contradicts_by_stripes(point: &Point) -> bool {
    let Known { ranges, stripes } = Known::at(point);
    let lo = |v: usize| ranges[v].lo;
    let alone = |stripe: &Stripe| {
        let most = ranges[stripe.x].hi - stripe.a * (lo(stripe.y) + stripe.z.map_or(0, lo));
        most < stripe.b || stripe.x == stripe.y && stripe.a == 1 && stripe.z.is_none() && stripe.b > 0
    };
    let against = |one: &Stripe, other: &Stripe| {
        let plain = one.a == 1 && other.a == 1 && one.z.is_none() && other.z.is_none();
        plain && one.x == other.y && one.y == other.x && one.b + other.b > 0
    };
    point.is_empty()
        || stripes.iter().any(alone)
        || stripes.iter().any(|one| stripes.iter().any(|other| against(one, other)))
}

#[test]
fn emptiness_by_stripes_is_found() {
    for part in [ONE, FLAWED] {
        let (right, wrong) = rule_found(part, Rule { is_empty: contradicts_by_stripes, ..RIGHT });
        assert!(right > 0 && wrong == 0);
    }
    let of_one: fn(&Point) -> bool =
        |point| point.is_empty() || Known::at(point).stripes.iter().any(|stripe| stripe.x == stripe.y && stripe.b > 0);
    assert_eq!(rule_found(ONE, Rule { is_empty: of_one, ..RIGHT }).1, 0);
}

/// An empty point whose predecessors owe all of its claims but those of what is empty.
#[test]
fn claims_of_the_empty_variable_that_are_not_owed_are_found() {
    let wrong = |listing: &[u8]| match (check(listing), read(listing)) {
        (answer @ Answer { number: CLAIM_DOES_NOT_FOLLOW, second, .. }, Ok(read)) => {
            let owner = read.points.iter().find(|point| point.claims.iter().any(|claim| claim.line == second));
            let owner = owner.expect("the second place is a claim");
            let claims = owner.claims.iter().filter(|claim| claim.line == second).copied().collect();
            let ranges = Known::at(&Point { claims, ..owner.clone() }).ranges;
            let known = Known::at(owner);
            let of_empty =
                (0..VARIABLES).any(|v| known.ranges[v].is_empty() && ranges[v] != Known::nothing().ranges[v]);
            if of_empty {
                return Answer { number: 0, place: 0, second: 0, points: read.points.len() as u64 };
            }
            answer
        }
        (answer, _) => answer,
    };
    for part in [LED_TO, FLAWED] {
        assert_eq!(found(part, &wrong).left.answer.number, CLAIM_DOES_NOT_FOLLOW);
    }
}

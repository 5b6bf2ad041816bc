//! A checker that is wrong on purpose about scales and bounds is found out, and the listing that shows it is small.

mod found;
mod rule;

use lines::LINE;
use reference::refusals::{ACCESS_MAY_LEAVE, CLAIM_DOES_NOT_FOLLOW, DIVISOR_MAY_BE_ZERO, OUT_OF_LIMITS};
use reference::{
    check, edges_within, read, Answer, Arithmetic, Claim, Edge, Instruction, Known, Limits, Operand, Point, Refusal,
    Stripe, Whole, LINKS, RESULTS_SIZE, SIZE_LIMIT, TRAYS_SIZE,
};
use rule::{makes_no_difference, numbers_found};
use trials::all;
use trials::shrink::{number, write};

const END: Whole = Limits::TODAY.bound;
const EARLIER_END: Whole = Limits::EARLIER.bound;
/// What drops no stripe, and adds one for every factor above 0.
const BOUNDLESS: Limits = Limits { scale: 1 << 40, bound: 1 << 100 };

/// Changes the text of a line.
type Change = fn(&mut [u8]);

/// How a checker treats scales and bounds. Each is right in all but one thing.
#[derive(Clone, Copy)]
struct Rule {
    /// What is done to a line before it is read.
    line: Change,
    /// What is kept of a scale that was read, in a stripe and in an access.
    of_stripe: fn(Whole) -> Whole,
    of_access: fn(Whole) -> Whole,
    /// What becomes of a shifted bound; none where the stripe is dropped.
    shifted: fn(Whole) -> Option<Whole>,
    /// The scale of the stripe that a factor adds, if it adds one.
    product: fn(Whole) -> Option<Whole>,
    /// The bound of a goal after a link.
    linked: fn(Whole) -> Whole,
    /// The end of an access with the greatest index.
    address: fn(Whole) -> Whole,
}

const RIGHT: Rule = Rule {
    line: |_| (),
    of_stripe: |scale| scale,
    of_access: |scale| scale,
    shifted: |bound| (-END..=END).contains(&bound).then_some(bound),
    product: |factor| (1..=4_095).contains(&factor).then_some(factor),
    linked: |bound| bound,
    address: |end| end,
};

fn refused(number: u64, place: u64, second: u64) -> Answer {
    Answer { number, place, second, points: 0 }
}

fn judged(listing: &[u8], rule: &Rule) -> Answer {
    let mut text = listing.to_vec();
    text.chunks_exact_mut(LINE).for_each(rule.line);
    let mut points = match read(&text) {
        Ok(listing) => listing.points,
        Err(Refusal { number, place, second }) => return refused(number, place, second),
    };
    points.iter_mut().for_each(|point| rescale(point, rule));
    let passes = Answer { number: 0, place: 0, second: 0, points: points.len() as u64 };
    (0..points.len()).find_map(|at| owed(&points, at, rule)).unwrap_or(passes)
}

fn rescale(point: &mut Point, rule: &Rule) {
    for line in &mut point.claims {
        if let Claim::Stripe(stripe) = &mut line.claim {
            stripe.a = (rule.of_stripe)(stripe.a);
        }
    }
    if let Instruction::Load { scale, .. } | Instruction::Store { scale, .. } = &mut point.instruction {
        *scale = (rule.of_access)(*scale);
    }
}

fn owed(points: &[Point], at: usize, rule: &Rule) -> Option<Answer> {
    let point = &points[at];
    if point.is_empty() {
        return None;
    }
    let known = Known::at(point);
    let divides = match point.instruction.divisor() {
        Some(Operand::Number(number)) => number > 0,
        Some(Operand::Variable(v)) => known.ranges[v].lo > 0,
        None => true,
    };
    if !divides {
        return Some(refused(DIVISOR_MAY_BE_ZERO, point.line, 0));
    }
    if !stays_inside(&point.instruction, &known, rule) {
        return Some(refused(ACCESS_MAY_LEAVE, point.line, 0));
    }
    let along = edges_by(at, &point.instruction, &known, rule);
    along
        .into_iter()
        .filter_map(|Edge { to, known }| known.map(|known| (&points[to], known)))
        .find_map(|(next, known)| next.claims.iter().find(|line| !claim_follows(&known, &line.claim, rule)))
        .map(|claim| refused(CLAIM_DOES_NOT_FOLLOW, point.line, claim.line))
}

fn stays_inside(instruction: &Instruction, known: &Known, rule: &Rule) -> bool {
    let (x, a, y, b) = match *instruction {
        Instruction::Load { width, table, scale, i, offset, .. } => {
            (TRAYS_SIZE + table as usize, scale, i, offset + width)
        }
        Instruction::Store { width, scale, i, offset, .. } => (RESULTS_SIZE, scale, i, offset + width),
        _ => return true,
    };
    let by_ranges = (rule.address)(a * known.ranges[y].hi + b) <= known.ranges[x].lo;
    by_ranges || follows(known, &Stripe { x, a, y, z: None, b }, LINKS, rule)
}

/// The edges with shifted bounds and added stripes as the rule has them.
fn edges_by(at: usize, instruction: &Instruction, before: &Known, rule: &Rule) -> Vec<Edge> {
    let mut edges = edges_within(BOUNDLESS, at, instruction, before);
    let Instruction::Compute { kind, d, i, o: Operand::Number(number) } = *instruction else { return edges };
    for known in edges.iter_mut().filter_map(|edge| edge.known.as_mut()) {
        let added = known.stripes.last().is_some_and(|last| names(last, d)) && d != i && number > 0;
        match kind {
            Arithmetic::Add | Arithmetic::Subtract if d == i => shift(&mut known.stripes, d, rule),
            Arithmetic::Multiply if added => rescale_last(&mut known.stripes, rule),
            _ => {}
        }
    }
    edges
}

fn names(stripe: &Stripe, v: usize) -> bool {
    stripe.x == v || stripe.y == v || stripe.z == Some(v)
}

fn shift(stripes: &mut Vec<Stripe>, d: usize, rule: &Rule) {
    let shifted = |stripe: &Stripe| match names(stripe, d) {
        true => (rule.shifted)(stripe.b).map(|b| Stripe { b, ..*stripe }),
        false => Some(*stripe),
    };
    *stripes = stripes.iter().filter_map(shifted).collect();
}

fn rescale_last(stripes: &mut Vec<Stripe>, rule: &Rule) {
    let last = stripes.pop().expect("one was added");
    stripes.extend((rule.product)(last.a).map(|a| Stripe { a, ..last }));
}

fn claim_follows(known: &Known, claim: &Claim, rule: &Rule) -> bool {
    match *claim {
        Claim::Stripe(goal) => follows(known, &goal, LINKS, rule),
        other => reference::claim_follows(known, &other),
    }
}

fn follows(known: &Known, goal: &Stripe, links: u32, rule: &Rule) -> bool {
    if reference::goal_follows(known, goal, 0) {
        return true;
    }
    let linking = known.stripes.iter().filter(|link| link.a == 1 && link.z.is_none() && links > 0);
    linking.into_iter().any(|link| {
        let b = (rule.linked)(goal.b - goal.a * link.b);
        let in_y = link.y == goal.y && follows(known, &Stripe { y: link.x, b, ..*goal }, links - 1, rule);
        in_y || Some(link.y) == goal.z && follows(known, &Stripe { z: Some(link.x), b, ..*goal }, links - 1, rule)
    })
}

const STRIPES: &str = "stripes of any scale";
const PRODUCTS: &str = "products by factors";
const ACCESSES: &str = "accesses of any scale";
const ADDRESSES: &str = "addresses that a narrow number";
const WRITTEN: &str = "bounds written";
const SHIFTED: &str = "bounds shifted to their ends";
const FAR_GOALS: &str = "goals that links carry";

/// Two ranges and three stripes, a step, three goals and STOP.
const FEW_LINES: usize = 9;

/// The numbers of the reference and of a wrong rule, on a small listing of the family.
#[track_caller]
fn rule_found(part: &str, rule: Rule) -> (u64, u64) {
    numbers_found(part, FEW_LINES, &|listing| judged(listing, &rule))
}

/// What is planted below differs from the reference in one thing alone.
#[test]
fn the_right_rule_makes_no_difference() {
    makes_no_difference(&|listing| judged(listing, &RIGHT));
}

/// Puts another number in a field of a line with this word, where it has the first.
fn replace(line: &mut [u8], word: &[u8], field: usize, present: Whole, other: Whole) {
    if line.starts_with(word) && number(line, field) == Some(present) {
        write(line, field, &other.to_string());
    }
}

#[test]
fn a_written_bound_one_past_an_end_that_is_taken_is_found() {
    let rules: [Change; 2] =
        [|line| replace(line, b"STRP", 5, END + 1, END), |line| replace(line, b"STRP", 5, -END - 1, -END)];
    for line in rules {
        assert_eq!(rule_found(WRITTEN, Rule { line, ..RIGHT }).0, OUT_OF_LIMITS);
    }
}

#[test]
fn a_written_bound_at_an_end_that_is_turned_back_is_found() {
    let rules: [Change; 4] = [
        |line| replace(line, b"STRP", 5, END, END + 1),
        |line| replace(line, b"STRP", 5, -END, -END - 1),
        |line| replace(line, b"STRP", 5, EARLIER_END + 1, END + 1),
        |line| replace(line, b"STRP", 5, -EARLIER_END - 1, -END - 1),
    ];
    for line in rules {
        assert_eq!(rule_found(WRITTEN, Rule { line, ..RIGHT }).1, OUT_OF_LIMITS);
    }
}

/// The word and the field of each scale.
const SCALE_OF_STRIPE: (&[u8], usize) = (b"STRP", 1);
const SCALE_OF_LOAD: (&[u8], usize) = (b"LOAD", 3);
const SCALE_OF_STORE: (&[u8], usize) = (b"STOR", 3);

#[test]
fn a_scale_of_4096_that_is_taken_is_found() {
    let rules: [(&str, Change); 3] = [
        (STRIPES, |line| replace(line, SCALE_OF_STRIPE.0, SCALE_OF_STRIPE.1, 4_096, 4_095)),
        (ACCESSES, |line| replace(line, SCALE_OF_LOAD.0, SCALE_OF_LOAD.1, 4_096, 4_095)),
        (ACCESSES, |line| replace(line, SCALE_OF_STORE.0, SCALE_OF_STORE.1, 4_096, 4_095)),
    ];
    for (part, line) in rules {
        assert_eq!(rule_found(part, Rule { line, ..RIGHT }).0, OUT_OF_LIMITS);
    }
}

/// A number above the limit becomes one that no field has.
fn limit(line: &mut [u8], (word, field): (&[u8], usize), most: Whole) {
    if line.starts_with(word) && number(line, field).is_some_and(|scale| scale > most) {
        write(line, field, "9999");
    }
}

#[test]
fn a_lower_limit_of_scales_in_one_word_is_found() {
    let rules: [(&str, Change); 6] = [
        (STRIPES, |line| limit(line, SCALE_OF_STRIPE, 255)),
        (STRIPES, |line| limit(line, SCALE_OF_STRIPE, 4_094)),
        (ACCESSES, |line| limit(line, SCALE_OF_LOAD, 255)),
        (ACCESSES, |line| limit(line, SCALE_OF_LOAD, 4_094)),
        (ACCESSES, |line| limit(line, SCALE_OF_STORE, 255)),
        (ACCESSES, |line| limit(line, SCALE_OF_STORE, 4_094)),
    ];
    for (part, line) in rules {
        assert_eq!(rule_found(part, Rule { line, ..RIGHT }).1, OUT_OF_LIMITS);
    }
}

#[test]
fn scales_cut_to_their_low_bits_are_found() {
    for of_stripe in [(|scale| scale % 256) as fn(Whole) -> Whole, |scale| scale % 2_048] {
        rule_found(STRIPES, Rule { of_stripe, ..RIGHT });
        rule_found(ACCESSES, Rule { of_stripe, ..RIGHT });
    }
    for of_access in [(|scale| scale % 256) as fn(Whole) -> Whole, |scale| scale % 2_048] {
        rule_found(ACCESSES, Rule { of_access, ..RIGHT });
        assert_eq!(rule_found(ADDRESSES, Rule { of_access, ..RIGHT }), (ACCESS_MAY_LEAVE, 0));
    }
    // both alike, so that a stripe still shows an access of its own scale
    let cut = |scale| scale % 256;
    rule_found(ADDRESSES, Rule { of_stripe: cut, of_access: cut, ..RIGHT });
}

#[test]
fn shifted_bounds_kept_past_an_end_are_found() {
    let rules: [fn(Whole) -> Option<Whole>; 5] = [
        |bound| (-END..=END + 1).contains(&bound).then_some(bound),
        |bound| (-END - 1..=END).contains(&bound).then_some(bound),
        |bound| (bound >= -END).then_some(bound),
        |bound| (bound <= END).then_some(bound),
        Some,
    ];
    for shifted in rules {
        assert_eq!(rule_found(SHIFTED, Rule { shifted, ..RIGHT }), (CLAIM_DOES_NOT_FOLLOW, 0));
    }
}

#[test]
fn shifted_bounds_dropped_at_an_end_are_found() {
    let rules: [fn(Whole) -> Option<Whole>; 4] = [
        |bound| (-END..END).contains(&bound).then_some(bound),
        |bound| (1 - END..=END).contains(&bound).then_some(bound),
        |bound| (-END..=EARLIER_END).contains(&bound).then_some(bound),
        |bound| (-EARLIER_END..=END).contains(&bound).then_some(bound),
    ];
    for shifted in rules {
        assert_eq!(rule_found(SHIFTED, Rule { shifted, ..RIGHT }), (0, CLAIM_DOES_NOT_FOLLOW));
    }
}

#[test]
fn shifted_bounds_that_stay_at_an_end_are_found() {
    let rules: [fn(Whole) -> Option<Whole>; 3] =
        [|bound| Some(bound.clamp(-END, END)), |bound| Some(bound.min(END)), |bound| Some(bound.max(-END))];
    for shifted in rules {
        assert_eq!(rule_found(SHIFTED, Rule { shifted, ..RIGHT }), (CLAIM_DOES_NOT_FOLLOW, 0));
    }
}

#[test]
fn products_that_add_too_little_are_found() {
    let rules: [fn(Whole) -> Option<Whole>; 4] = [
        |factor| (1..=255).contains(&factor).then_some(factor),
        |factor| (1..=4_094).contains(&factor).then_some(factor),
        |factor| (2..=4_095).contains(&factor).then_some(factor),
        |factor| (1..=4_095).contains(&factor).then_some(factor % 256),
    ];
    for product in rules {
        assert_eq!(rule_found(PRODUCTS, Rule { product, ..RIGHT }), (0, CLAIM_DOES_NOT_FOLLOW));
    }
}

/// For a factor that is no scale: its low bits, or the greatest scale below it.
#[test]
fn products_that_add_too_much_are_found() {
    let rules: [fn(Whole) -> Option<Whole>; 4] = [
        |factor| (RIGHT.product)(factor).or(Some(factor % 256)),
        |factor| (RIGHT.product)(factor).or(Some(factor % 4_096)),
        |factor| (RIGHT.product)(factor).or(Some(factor % 65_536)),
        |factor| Some(factor.min(4_095)),
    ];
    for product in rules {
        assert_eq!(rule_found(PRODUCTS, Rule { product, ..RIGHT }), (CLAIM_DOES_NOT_FOLLOW, 0));
    }
}

/// No goal has the scale 4,096, so that nothing could tell of such a stripe.
#[test]
fn a_stripe_of_scale_4096_shows_nothing() {
    let rule = Rule { product: Some, ..RIGHT };
    for family in all().into_iter().filter(|family| family.name.contains(PRODUCTS)) {
        for listing in (0..family.batches).flat_map(|batch| family.batch(batch)) {
            assert_eq!(check(&listing), judged(&listing, &rule));
        }
    }
}

/// The number modulo 2 to the power of so many bits, of either sign.
fn narrow(number: Whole, bits: u32) -> Whole {
    let half = 1 << (bits - 1);
    (number + half).rem_euclid(2 * half) - half
}

#[test]
fn goals_summed_in_too_few_bits_are_found() {
    let rules: [fn(Whole) -> Whole; 5] = [
        |bound| narrow(bound, 32),
        |bound| narrow(bound, 48),
        |bound| narrow(bound, 54),
        |bound| narrow(bound, 58),
        |bound| narrow(bound, 60),
    ];
    for linked in rules {
        rule_found(FAR_GOALS, Rule { linked, ..RIGHT });
    }
}

/// Ranges show every goal below the least bound, so that only the greatest counts.
#[test]
fn goals_kept_within_the_limits_are_found() {
    let rules: [fn(Whole) -> Whole; 4] = [
        |bound| bound.clamp(-END, END),
        |bound| bound.min(END),
        |bound| bound.min(1 << 48),
        |bound| bound.min(1 << 57),
    ];
    for linked in rules {
        assert_eq!(rule_found(FAR_GOALS, Rule { linked, ..RIGHT }).1, 0);
    }
}

#[test]
fn addresses_in_too_few_bits_are_found() {
    let rules: [fn(Whole) -> Whole; 4] =
        [|end| end % (1 << 16), |end| end % (1 << 32), |end| end % (1 << 40), |end| end.min(SIZE_LIMIT)];
    for address in rules {
        assert_eq!(rule_found(ADDRESSES, Rule { address, ..RIGHT }), (ACCESS_MAY_LEAVE, 0));
    }
}

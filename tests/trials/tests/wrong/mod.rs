//! Checkers that are the reference but for one rule.

use reference::{check, claim_follows, edges, read, Answer, Edge, Instruction, Known, Operand, Range, Stripe};

/// The reference's answer, with PASS where the point that fails would pass by a weaker rule.
pub fn weakened(listing: &[u8], number: u64, excused: &dyn Fn(usize, &Instruction, &Known, u64) -> bool) -> Answer {
    let answer = check(listing);
    if answer.number != number {
        return answer;
    }
    let points = read(listing).expect("12 to 14 come after reading").points;
    let at = points.iter().position(|point| point.line == answer.place).expect("the place is an instruction");
    if !excused(at, &points[at].instruction, &Known::at(&points[at]), answer.second) {
        return answer;
    }
    Answer { number: 0, place: 0, second: 0, points: points.len() as u64 }
}

/// What is known after a step by another rule, none where no step is possible; none at all for instructions that the
/// rule is not about.
type Rule<'a> = &'a dyn Fn(&Instruction, &Known) -> Option<Option<Known>>;

/// The reference's answer, with another rule for some instructions where it is PASS or 14.
pub fn with_rule(listing: &[u8], rule: Rule) -> Answer {
    let answer = check(listing);
    if !matches!(answer.number, 0 | 14) {
        return answer;
    }
    let points = read(listing).expect("12 to 14 come after reading").points;
    for (at, point) in points.iter().enumerate().filter(|(_, point)| !point.is_empty()) {
        let before = Known::at(point);
        for Edge { to, known } in edges(at, &point.instruction, &before) {
            let known = rule(&point.instruction, &before).unwrap_or(known);
            let Some(known) = known.filter(|known| !known.has_empty_range()) else { continue };
            if let Some(claim) = points[to].claims.iter().find(|claim| !claim_follows(&known, &claim.claim)) {
                return Answer { number: 14, place: point.line, second: claim.line, points: 0 };
            }
        }
    }
    Answer { number: 0, place: 0, second: 0, points: points.len() as u64 }
}

pub fn range_of(known: &Known, o: Operand) -> Range {
    match o {
        Operand::Variable(v) => known.ranges[v],
        Operand::Number(number) => Range::only(number),
    }
}

pub fn names(stripe: &Stripe, v: usize) -> bool {
    stripe.x == v || stripe.y == v || stripe.z == Some(v)
}

//! Points whose ranges are empty for some variable, and points for which that is nearly so: what they would owe, what
//! is owed to them, and point 0 among them.

use super::quotients::claim_range;
use super::{pieces, probes, routines};
use crate::draft::{draft_of, Draft, DraftPoint};
use crate::random::Random;
use reference::{
    edges, read, Arithmetic, Claim, Comparison, Instruction, Operand, Range, Stripe, Whole, MAX, REGISTERS, VARIABLES,
};

/// LEAS above MOST, by one more often than not.
fn empty_range(random: &mut Random, v: usize) -> Range {
    let greatest = pieces::greatest(v);
    let hi = pieces::value_of(random, v).min(greatest - 1);
    let any = random.between(hi + 1, greatest);
    let lo = random.pick(&[hi + 1, hi + 1, hi + 1, (hi + 2).min(greatest), greatest, any]);
    Range { lo, hi }
}

/// The variable keeps its stripes and loses its range.
fn unclaim(point: &mut DraftPoint, v: usize) {
    point.claims.retain(|claim| match *claim {
        Claim::Least { v: other, .. } | Claim::Most { v: other, .. } => other != v,
        Claim::Stripe(_) => true,
    });
}

/// The point becomes empty by one variable; what it claims of others stays.
pub fn empty_one(random: &mut Random, point: &mut DraftPoint) {
    let v = random.below(VARIABLES);
    let range = empty_range(random, v);
    unclaim(point, v);
    claim_range(random, point, v, range);
}

/// By one variable, seldom by two.
pub fn make_empty(random: &mut Random, point: &mut DraftPoint) {
    (0..random.pick(&[1, 1, 1, 1, 2])).for_each(|_| empty_one(random, point));
}

/// Claims that come close: one value or two, one end alone as far out as it may be, ends of two variables, and stripes
/// that contradict each other or a range.
pub fn make_nearly_empty(random: &mut Random, point: &mut DraftPoint) {
    let v = random.below(VARIABLES);
    let (value, greatest) = (pieces::value_of(random, v), pieces::greatest(v));
    unclaim(point, v);
    match random.below(8) {
        0..=2 => claim_range(random, point, v, Range::only(value)),
        3 => claim_range(random, point, v, Range { lo: value.min(greatest - 1), hi: value.min(greatest - 1) + 1 }),
        4 => point.claim(Claim::Least { v, value: greatest }),
        5 => point.claim(Claim::Most { v, value: 0 }),
        6 => {
            let other = (v + 1 + random.below(VARIABLES - 1)) % VARIABLES;
            unclaim(point, other);
            point.claim(Claim::Least { v, value: value.max(1) });
            point.claim(Claim::Most { v: other, value: (value - 1).clamp(0, pieces::greatest(other)) });
        }
        _ => contradict_by_stripes(random, point, v),
    }
}

fn contradict_by_stripes(random: &mut Random, point: &mut DraftPoint, v: usize) {
    let other = (v + 1 + random.below(VARIABLES - 1)) % VARIABLES;
    let mut stripe = |x, y, b| point.claim(Claim::Stripe(Stripe { x, a: 1, y, z: None, b }));
    match random.below(4) {
        0 => stripe(v, v, 1),
        1 => [(v, other), (other, v)].into_iter().for_each(|(x, y)| stripe(x, y, 1)),
        2 => stripe(v, other, pieces::greatest(v) + 1),
        _ => {
            stripe(v, other, 8);
            point.claim(Claim::Most { v, value: 7 });
        }
    }
}

/// An instruction that owes a divisor, an access or the claims of a target.
pub fn owing(random: &mut Random, target: usize) -> Instruction {
    let pool = pieces::pool_of_two(random);
    let divisor = if random.percent(40) { Operand::Number(0) } else { Operand::Variable(random.pick(&pool)) };
    let (d, i) = (pool[0], random.pick(&pool));
    match random.below(8) {
        0 | 1 => Instruction::Compute { kind: Arithmetic::Divide, d, i, o: divisor },
        2 => Instruction::DivMod { q: d, i, r: pool[pool.len() - 1], o: divisor },
        3 | 4 => pieces::load(random, &pool),
        5 => pieces::store(random, &pool),
        6 => Instruction::Jump { target },
        _ => pieces::branch(random, &pool, target),
    }
}

/// Point 1 is empty, nearly so or neither, and nothing leads to it; points 2 and 3, to which it leads, claim something.
pub fn one_point(random: &mut Random) -> Vec<Vec<u8>> {
    let mut draft = Draft::default();
    let past = [Instruction::Stop, Instruction::Jump { target: 4 }, Instruction::Jump { target: 0 }];
    draft.push(random.pick(&past));
    let (pool, target) = (pieces::pool(random), random.pick(&[2, 3, 3]));
    let owes = random.percent(60);
    let instruction = if owes { owing(random, target) } else { pieces::instruction(random, &pool, target) };
    let point = draft.push(instruction);
    for _ in 0..random.pick(&[0, 0, 1, 2]) {
        point.claim(pieces::claim(random, &pool));
    }
    match random.below(20) {
        0..=9 => make_empty(random, point),
        10..=18 => make_nearly_empty(random, point),
        _ => {}
    }
    for _ in 0..2 {
        let next = draft.push(Instruction::Stop);
        for _ in 0..random.pick(&[0, 1, 1, 2]) {
            next.claim(pieces::claim(random, &pool));
        }
    }
    draft.push(Instruction::Stop);
    vec![draft.text()]
}

/// A calculation that reads and overwrites the one variable whose range is empty or of a few values, with claims at and
/// beside what the new ends would be.
pub fn overwritten(random: &mut Random) -> Vec<Vec<u8>> {
    let (d, other) = (random.below(8), 8 + random.below(10));
    let hi = random.pick(&[0, 1, 2, 3, 5, 65_535]);
    let above = random.pick(&[hi + 1, hi + 1, hi + 2, 65_537, 1 << 31, MAX]);
    let lo = if random.percent(60) { above } else { random.pick(&[hi, hi, (hi - 1).max(0), 0]) };
    let (low, width) = (random.between(0, 5), random.between(0, 5));
    let operands = [Operand::Variable(d), Operand::Variable(other), Operand::Number(low)];
    let (i, o) = (random.pick(&[d, d, other]), random.pick(&operands));
    let kinds = [Arithmetic::Add, Arithmetic::Subtract, Arithmetic::Multiply, Arithmetic::Divide];
    let computed = Instruction::Compute { kind: random.pick(&kinds), d, i, o };
    let dealt = Instruction::DivMod { q: d, i, r: REGISTERS - 1, o };
    let mut draft = Draft::default();
    draft.push(Instruction::Jump { target: 0 });
    let point = draft.push(random.pick(&[computed, computed, dealt, Instruction::Set { d, number: low }]));
    claim_range(random, point, d, Range { lo, hi });
    claim_range(random, point, other, Range { lo: low, hi: low + width });
    let edge = edges(1, &point.instruction, &point.known()).remove(0);
    draft.push(Instruction::Stop);
    probes::claim_beside(random, &edge, &[d, d, other], &mut draft);
    vec![draft.text()]
}

/// A point that leads to one that is empty, or nearly so: it shows some of its claims, or its edge is impossible or
/// misses that by one.
pub fn led_to(random: &mut Random) -> Vec<Vec<u8>> {
    let mut draft = Draft::default();
    if random.percent(30) {
        draft.push(Instruction::Stop);
    }
    let from = draft.points.len();
    let at = from + 1 + random.below(2);
    let (instruction, hindrances) = leading(random, from, at);
    draft.push(instruction);
    draft.push(Instruction::Stop);
    draft.push(Instruction::Stop);
    let point = &mut draft.points[at];
    for _ in 0..random.pick(&[0, 0, 1, 2]) {
        let pool = pieces::pool(random);
        point.claim(pieces::claim(random, &pool));
    }
    if random.percent(75) {
        make_empty(random, point);
    } else {
        make_nearly_empty(random, point);
    }
    let (claims, share) = (point.claims.clone(), random.pick(&[0, 50, 80, 100]));
    let before = &mut draft.points[from];
    hindrances.into_iter().for_each(|claim| before.claim(claim));
    for claim in claims {
        if random.percent(share) {
            claim_unless_empty(before, claim);
        }
    }
    vec![draft.text()]
}

/// A claim, unless it leaves the point no value of some variable.
fn claim_unless_empty(point: &mut DraftPoint, claim: Claim) {
    let claims = point.claims.clone();
    point.claim(claim);
    if point.known().has_empty_range() {
        point.claims = claims;
    }
}

/// An instruction whose edges lead to the point, and claims by which these are impossible or nearly so.
fn leading(random: &mut Random, from: usize, at: usize) -> (Instruction, Vec<Claim>) {
    let pool = pieces::pool(random);
    if random.percent(25) {
        let falls = at == from + 1 && random.percent(60);
        let straight =
            random.pick(&[Instruction::Copy { d: pool[0], i: pool[0] }, Instruction::Set { d: pool[0], number: 3 }]);
        return (if falls { straight } else { Instruction::Jump { target: at } }, vec![]);
    }
    let kind = random.pick(&[Comparison::Less, Comparison::Equal]);
    let (i, value) = (random.below(VARIABLES), random.between(1, 60_000));
    let other = (i + 1 + random.below(VARIABLES - 1)) % VARIABLES;
    let o = if random.percent(60) { Operand::Number(value) } else { Operand::Variable(other) };
    let taken = at == from + 2;
    let claims = if random.percent(65) { hindrances(random, kind, taken, (i, o), value) } else { vec![] };
    // seldom both edges lead to it
    let target = if random.percent(8) { at } else { from + 2 };
    (Instruction::Branch { kind, i, target, o }, claims)
}

/// Ends of i and o by which the branch never goes this way, or just so.
fn hindrances(
    random: &mut Random,
    kind: Comparison,
    taken: bool,
    (i, o): (usize, Operand),
    value: Whole,
) -> Vec<Claim> {
    let slip = random.pick(&[0, 0, 1]);
    let at_least = |v, value| Claim::Least { v, value };
    let at_most = |v, value| Claim::Most { v, value };
    let (mut claims, of_operand) = match (kind, taken) {
        (Comparison::Less, true) => (vec![at_least(i, value - slip)], [None, Some(value)]),
        (Comparison::Less, false) => (vec![at_most(i, value - 1 + slip)], [Some(value), None]),
        (Comparison::Equal, true) if random.percent(50) => (vec![at_least(i, value + 1 - slip)], [None, Some(value)]),
        (Comparison::Equal, true) => (vec![at_most(i, value - 1 + slip)], [Some(value), None]),
        (Comparison::Equal, false) => (vec![at_least(i, value - slip), at_most(i, value)], [Some(value), Some(value)]),
    };
    if let Operand::Variable(v) = o {
        let [lo, hi] = of_operand;
        claims.extend(lo.map(|value| at_least(v, value)));
        claims.extend(hi.map(|value| at_most(v, value)));
    }
    claims
}

/// A few random points of which some are empty; some of these would owe something.
pub fn among_points(random: &mut Random) -> Vec<Vec<u8>> {
    let text = probes::jumble(random).swap_remove(0);
    let Ok(listing) = read(&text) else { return vec![text] };
    let mut draft = draft_of(&listing);
    let last = draft.points.len() - 1;
    for (at, point) in draft.points.iter_mut().enumerate().skip(1) {
        match random.below(10) {
            0..=4 => {
                make_empty(random, point);
                if at < last && random.percent(25) {
                    point.instruction = owing(random, at);
                }
            }
            5 => make_nearly_empty(random, point),
            _ => {}
        }
    }
    vec![draft.text()]
}

/// Point 0 is empty or nearly so, whatever stands behind it; other points may be empty too.
pub fn at_point_0(random: &mut Random) -> Vec<Vec<u8>> {
    let mut draft = match random.below(6) {
        0 => routines::routine(random),
        1 => {
            let mut alone = Draft::default();
            alone.push(random.pick(&[Instruction::Stop, Instruction::Jump { target: 0 }]));
            alone
        }
        _ => match read(&among_points(random)[0]) {
            Ok(listing) => draft_of(&listing),
            Err(_) => routines::routine(random),
        },
    };
    if random.percent(55) {
        make_empty(random, &mut draft.points[0]);
    } else {
        make_nearly_empty(random, &mut draft.points[0]);
    }
    vec![draft.text()]
}

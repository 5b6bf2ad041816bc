//! Stripe bounds at and beside the ends of their limits, those of today and the earlier ones: written, shifted by a
//! step, and in goals that links carry far beyond them.

use super::long_records::scale;
use super::{pieces, probes};
use crate::draft::{Draft, DraftPoint};
use crate::random::Random;
use reference::{Arithmetic, Claim, Instruction, Limits, Operand, Stripe, Whole, MAX, RESULTS_SIZE, TRAYS_SIZE};

/// An end of the limits or a number beside it, of either sign, or one between the two limits.
pub fn near_end(random: &mut Random) -> Whole {
    let end = pieces::limits(random).bound;
    let between = random.between(Limits::EARLIER.bound, Limits::TODAY.bound);
    let amount = random.pick(&[end - 1, end, end, end, end + 1, between]);
    random.pick(&[amount, -amount])
}

/// A bound near an end that a step leaves as it is, and after the step one at or beside it.
pub fn written(random: &mut Random) -> Vec<Vec<u8>> {
    let (x, y, other) = (random.below(4), 4 + random.below(4), 8 + random.below(10));
    let stripe = Stripe { x, a: scale(random), y, z: random.percent(30).then_some(other), b: near_end(random) };
    let steps =
        [Instruction::Jump { target: 1 }, Instruction::Set { d: 15, number: 3 }, Instruction::Copy { d: 3, i: y }];
    let step = random.pick(&steps);
    let mut draft = Draft::default();
    draft.push(step).claim(Claim::Stripe(stripe));
    // the copy may stand for what was copied
    let y = if random.percent(60) && matches!(step, Instruction::Copy { .. }) { 3 } else { y };
    let again = near_end(random);
    let b = random.pick(&[stripe.b, stripe.b, stripe.b, stripe.b + 1, stripe.b - 1, -stripe.b, again]);
    draft.push(Instruction::Stop).claim(Claim::Stripe(Stripe { y, b, ..stripe }));
    vec![draft.text()]
}

/// The register that a shift moves.
const MOVED: usize = 1;

/// A register moved by a number, up or down.
struct Shift {
    kind: Arithmetic,
    by: Whole,
}

impl Shift {
    fn any(random: &mut Random) -> Shift {
        let by = random.pick(&[0, 1, 1, 2, 3, 7, 1_000, 65_535, (1 << 31) - 1, 1 << 31, MAX - 1_000]);
        Shift { kind: random.pick(&[Arithmetic::Add, Arithmetic::Subtract]), by }
    }

    fn instruction(&self) -> Instruction {
        Instruction::Compute { kind: self.kind, d: MOVED, i: MOVED, o: Operand::Number(self.by) }
    }

    /// How far the bound of the stripe moves.
    fn of(&self, stripe: &Stripe) -> Whole {
        let sign = if self.kind == Arithmetic::Add { 1 } else { -1 };
        let times = Whole::from(stripe.y == MOVED) + Whole::from(stripe.z == Some(MOVED));
        sign * self.by * (Whole::from(stripe.x == MOVED) - stripe.a * times)
    }

    /// The range by which nothing wraps, seldom one value too wide.
    fn claim_room(&self, random: &mut Random, point: &mut DraftPoint) {
        let slip = random.pick(&[0, 0, 0, 0, 0, 5, 5, 5, -1]);
        let claim = match self.kind {
            Arithmetic::Add => Claim::Most { v: MOVED, value: (MAX - self.by - slip).min(MAX) },
            _ => Claim::Least { v: MOVED, value: (self.by + slip).max(0) },
        };
        point.claim(claim);
    }
}

/// A register moved by a number, with stripes over it whose bounds come to an end of the limits or go past it.
pub fn shifted(random: &mut Random) -> Vec<Vec<u8>> {
    let shift = Shift::any(random);
    let mut draft = Draft::default();
    let point = draft.push(shift.instruction());
    shift.claim_room(random, point);
    let mut goals = Vec::new();
    for _ in 0..random.pick(&[1, 1, 2, 3]) {
        let shift_one = random.pick(&[raised, raised, lowered]);
        goals.extend(shift_one(random, &shift, point));
    }
    let next = draft.push(Instruction::Stop);
    goals.into_iter().for_each(|goal| next.claim(Claim::Stripe(goal)));
    vec![draft.text()]
}

/// The moved register as x, y, z, two of them, all three and none.
const PLACES: [(usize, usize, Option<usize>); 10] = [
    (MOVED, 2, None),
    (2, MOVED, None),
    (2, 3, Some(MOVED)),
    (2, MOVED, Some(3)),
    (2, MOVED, Some(MOVED)),
    (MOVED, MOVED, None),
    (MOVED, 2, Some(MOVED)),
    (MOVED, MOVED, Some(2)),
    (MOVED, MOVED, Some(MOVED)),
    (2, 3, None),
];

/// A stripe whose bound comes to an end or past it, and the goal that it would show.
fn raised(random: &mut Random, shift: &Shift, point: &mut DraftPoint) -> Option<Stripe> {
    let (x, y, z) = random.pick(&PLACES);
    let stripe = Stripe { x, a: scale(random), y, z, b: 0 };
    let (end, moves) = (pieces::limits(random).bound, shift.of(&stripe));
    let past = end + random.pick(&[-1, 0, 0, 1, 1, shift.by]);
    let after = if moves < 0 { -past } else { past };
    let before = Stripe { b: after - moves, ..stripe };
    if !Limits::TODAY.has_bound(before.b) {
        return None;
    }
    point.claim(Claim::Stripe(before));
    let beside = after + random.pick(&[0, 0, 0, -1, 1]);
    Some(Stripe { b: beside.clamp(-end, end), ..stripe })
}

/// Ranges show whatever a bound near the least does, so that such a bound counts as a link alone: it carries a goal to
/// a stripe with a bound near the greatest.
fn lowered(random: &mut Random, shift: &Shift, point: &mut DraftPoint) -> Option<Stripe> {
    let end = pieces::limits(random).bound;
    let difference = |x, y, b| Stripe { x, a: 1, y, z: None, b };
    let (top, middle, low) = if shift.kind == Arithmetic::Add { (4, 5, MOVED) } else { (4, MOVED, 5) };
    let after = -(end + random.pick(&[-1, 0, 0, 1, 1, shift.by]));
    let high = end - random.pick(&[0, 0, 1, 50]);
    let mut stripes = [difference(top, middle, high), difference(middle, low, after)];
    stripes.iter_mut().for_each(|stripe| stripe.b -= shift.of(stripe));
    if !stripes.iter().all(|stripe| Limits::TODAY.has_bound(stripe.b)) {
        return None;
    }
    stripes.into_iter().for_each(|stripe| point.claim(Claim::Stripe(stripe)));
    let goal = high + after + random.pick(&[0, 0, 0, -1, 1]);
    Some(difference(top, low, goal))
}

/// A goal of any scale at the far end of one to four links with bounds near an end, in y, in z or in both.
pub fn far_goals(random: &mut Random) -> Vec<Vec<u8>> {
    let (a, length) = (scale(random), 1 + random.below(4));
    let (size, last) = (random.pick(&[TRAYS_SIZE, RESULTS_SIZE]), length);
    let moves = far_moves(random, length);
    let link = |x, y, b| Stripe { x, a: 1, y, z: None, b };
    let mut links: Vec<Stripe> = (0..length).map(|at| link(at + 1, at, moves[at])).collect();
    let (mut from, mut to) = ((0, None), (last, None));
    match random.below(6) {
        0 => (from.1, to.1) = (Some(9), Some(9)),
        1 => {
            links.push(link(8, 7, far_moves(random, 1)[0]));
            (from.1, to.1) = (Some(7), Some(8));
        }
        2 => (from, to) = ((9, Some(0)), (9, Some(last))),
        _ => {}
    }
    let b = random.pick(&[0, 1, 5, 60_000, Limits::TODAY.bound]);
    let reached = b + a * links.iter().map(|link| link.b).sum::<Whole>();
    // ranges show this much and no more
    let least = -a * MAX * if from.1.is_some() { 2 } else { 1 };
    let end = Limits::TODAY.bound;
    let asked = match reached > least {
        true => reached + random.pick(&[0, 0, 0, -1, 1]),
        false => random.pick(&[least, least + 1, least + 1, 0, end]),
    };
    let goal = Stripe { x: size, a, y: from.0, z: from.1, b: asked.clamp(-end, end) };
    let mut stripes = vec![Stripe { x: size, a, y: to.0, z: to.1, b }];
    stripes.append(&mut links);
    let by_ranges = random.percent(25);
    vec![probes::asked(random, stripes, by_ranges, goal)]
}

/// Bounds of links, many of them near an end; often two of them cancel each other but for a little.
fn far_moves(random: &mut Random, length: usize) -> Vec<Whole> {
    let end = Limits::TODAY.bound;
    let one = |random: &mut Random| {
        let far = near_end(random).clamp(-end, end);
        random.pick(&[far, far, 0, 1, -1])
    };
    let mut moves: Vec<Whole> = (0..length).map(|_| one(random)).collect();
    if length > 1 && random.percent(70) {
        let (at, other) = (random.below(length), random.below(length - 1));
        let other = if other < at { other } else { other + 1 };
        moves[other] = (random.pick(&[0, 0, 1, -1]) - moves[at]).clamp(-end, end);
    }
    moves
}

//! Small listings that ask one question each, with an answer at the edge: one step and the claims after it, a chain
//! of links, an access at the end of its table, a bound at its limit.

use super::pieces;
use crate::draft::{Draft, DraftPoint};
use crate::random::Random;
use reference::{
    edges, Arithmetic, Claim, Edge, Instruction, Known, Limits, Operand, Stripe, Whole, RESULTS_SIZE, TRAYS_SIZE,
    VARIABLES,
};

/// Random claims, a random instruction, and after it claims at, below and above what follows.
pub fn one_edge(random: &mut Random) -> Vec<Vec<u8>> {
    let pool = pieces::pool(random);
    edge_over(random, &pool, pieces::instruction)
}

/// An instruction over a pool of variables, with the point that it may go to.
pub type Maker = fn(&mut Random, &[usize], usize) -> Instruction;

/// The same with variables and instructions of one's own.
pub fn edge_over(random: &mut Random, pool: &[usize], make: Maker) -> Vec<Vec<u8>> {
    let mut draft = Draft::default();
    // behind a jump to itself, a point may have empty ranges
    if random.percent(50) {
        draft.push(Instruction::Jump { target: 0 });
    }
    let at = draft.points.len();
    let target = at + 1 + random.below(2);
    let point = draft.push(make(random, pool, target));
    pieces::claim_ranges(random, pool, point);
    let stripes = random.pick(&[0, 1, 2, 3, 5, 8]);
    pieces::claim_stripes(random, pool, stripes, point);
    allow_access(random, point);
    let before = point.known();
    let edges = edges(at, &point.instruction, &before);
    draft.push(Instruction::Stop);
    draft.push(Instruction::Stop);
    for edge in &edges {
        claim_beside(random, edge, pool, &mut draft);
        claim_again(random, &before, pool, &mut draft.points[edge.to]);
        let tempting = tempting(&draft.points[at].instruction);
        if !tempting.is_empty() && random.percent(25) {
            draft.points[edge.to].claim(Claim::Stripe(random.pick(&tempting)));
        }
    }
    vec![draft.text()]
}

/// The stripes that the instruction adds where nothing wraps, no variable stands twice, and the branch goes its way.
fn tempting(instruction: &Instruction) -> Vec<Stripe> {
    let difference = |x, y, b| Stripe { x, a: 1, y, z: None, b };
    match *instruction {
        Instruction::Copy { d, i } => vec![difference(d, i, 0), difference(i, d, 0)],
        Instruction::Compute { kind: Arithmetic::Add, d, i, o } => match o {
            Operand::Number(c) => vec![difference(d, i, c), difference(i, d, -c)],
            Operand::Variable(v) => vec![Stripe { z: Some(v), ..difference(d, i, 0) }],
        },
        Instruction::Compute { kind: Arithmetic::Subtract, d, i, o } => match o {
            Operand::Number(c) => vec![difference(d, i, -c), difference(i, d, c)],
            Operand::Variable(v) => vec![Stripe { z: Some(v), ..difference(i, d, 0) }],
        },
        Instruction::Compute { kind: Arithmetic::Multiply, d, i, o: Operand::Number(c) } => {
            // a factor that is no scale may be taken for one by its low bits
            let scales = [c, c % 256, c % 4_096].into_iter().filter(|&a| Limits::TODAY.has_scale(a));
            scales.map(|a| Stripe { a, ..difference(d, i, 0) }).collect()
        }
        Instruction::Branch { i, o: Operand::Variable(v), .. } => {
            vec![difference(v, i, 1), difference(v, i, 0), difference(i, v, 0)]
        }
        _ => vec![],
    }
}

/// Sometimes claims what was known before the step, which the step may have made untrue.
fn claim_again(random: &mut Random, before: &Known, pool: &[usize], point: &mut DraftPoint) {
    if random.percent(60) {
        return;
    }
    let v = random.pick(pool);
    match random.below(6) {
        0 => point.claim(Claim::Least { v, value: before.ranges[v].lo }),
        1 => point.claim(Claim::Most { v, value: before.ranges[v].hi }),
        _ if before.stripes.is_empty() => {}
        _ => {
            let stripe = before.stripes[random.below(before.stripes.len())];
            point.claim(Claim::Stripe(stripe));
        }
    }
}

/// Lets most divisions and accesses through, so that the edge behind them is looked at.
fn allow_access(random: &mut Random, point: &mut DraftPoint) {
    if random.percent(10) {
        return;
    }
    if let Some(Operand::Variable(v)) = point.instruction.divisor() {
        point.claims.retain(|claim| !matches!(*claim, Claim::Least { v: other, .. } if other == v));
        let value = random.between(1, 3);
        point.claim(Claim::Least { v, value });
    }
    if let Instruction::Load { i, table, width, offset, scale, .. } = point.instruction {
        let size = TRAYS_SIZE + table as usize;
        point.claims.insert(0, Claim::Stripe(Stripe { x: size, a: scale, y: i, z: None, b: width + offset }));
        keep_eight_stripes_in_order(point);
    }
}

fn keep_eight_stripes_in_order(point: &mut DraftPoint) {
    let claims = std::mem::take(&mut point.claims);
    claims.into_iter().for_each(|claim| point.claim(claim));
}

pub(super) fn claim_beside(random: &mut Random, edge: &Edge, pool: &[usize], draft: &mut Draft) {
    let point = &mut draft.points[edge.to];
    let Some(known) = &edge.known else {
        for _ in 0..random.below(4) {
            point.claim(pieces::claim(random, pool));
        }
        return;
    };
    for _ in 0..1 + random.below(3) {
        let beyond = random.pick(&[0, 0, 0, 0, 0, -1, -1, -7, 1]);
        let claim = strongest(random, known, pool, beyond);
        if within_limits(&claim) {
            point.claim(claim);
        }
    }
}

/// A claim that just follows, or one that is stronger by `beyond`.
fn strongest(random: &mut Random, known: &Known, pool: &[usize], beyond: Whole) -> Claim {
    let v = random.pick(pool);
    match random.below(5) {
        0 => Claim::Least { v, value: known.ranges[v].lo + beyond },
        1 => Claim::Most { v, value: known.ranges[v].hi - beyond },
        _ => {
            let goal = likely_goal(random, known, pool);
            let links = random.pick(&[0, 1, 2, 3, 3, 3, 4]);
            Claim::Stripe(Stripe { b: best(known, &goal, links) + beyond, ..goal })
        }
    }
}

/// Often over the variables of a stripe that stands, so that stripes count and not only ranges.
fn likely_goal(random: &mut Random, known: &Known, pool: &[usize]) -> Stripe {
    let mut goal = pieces::stripe(random, pool);
    if let (Some(&last), true) = (known.stripes.last(), random.percent(70)) {
        // the last one is what the step added, if it added one
        let base = if random.percent(40) { last } else { known.stripes[random.below(known.stripes.len())] };
        goal = Stripe { b: 0, ..base };
        if random.percent(50) {
            goal.y = random.pick(pool);
        }
        if let (Some(z), true) = (goal.z, random.percent(30)) {
            (goal.y, goal.z) = (z, Some(goal.y));
        }
    }
    goal
}

/// The greatest bound that follows within so many links.
fn best(known: &Known, goal: &Stripe, links: u32) -> Whole {
    let hi = |v: usize| known.ranges[v].hi;
    let mut best_bound = known.ranges[goal.x].lo - goal.a * (hi(goal.y) + goal.z.map_or(0, hi));
    for stripe in &known.stripes {
        let same = (stripe.y, stripe.z) == (goal.y, goal.z) || (stripe.z, Some(stripe.y)) == (Some(goal.y), goal.z);
        if stripe.x == goal.x && stripe.a == goal.a && same {
            best_bound = best_bound.max(stripe.b);
        }
    }
    if links == 0 {
        return best_bound;
    }
    for link in known.stripes.iter().filter(|link| link.a == 1 && link.z.is_none()) {
        if link.y == goal.y {
            best_bound = best_bound.max(best(known, &Stripe { y: link.x, ..*goal }, links - 1) + goal.a * link.b);
        }
        if goal.z == Some(link.y) {
            let replaced = Stripe { z: Some(link.x), ..*goal };
            best_bound = best_bound.max(best(known, &replaced, links - 1) + goal.a * link.b);
        }
    }
    best_bound
}

pub(super) fn within_limits(claim: &Claim) -> bool {
    match *claim {
        Claim::Least { v, value } | Claim::Most { v, value } => (0..=pieces::greatest(v)).contains(&value),
        Claim::Stripe(stripe) => Limits::TODAY.has_bound(stripe.b),
    }
}

/// A goal at the far end of one to four links, among stripes that do not help: by a claim or by an access.
pub fn chain(random: &mut Random) -> Vec<Vec<u8>> {
    let length = 1 + random.below(4);
    let size = random.pick(&[TRAYS_SIZE, RESULTS_SIZE]);
    let start = random.below(6);
    let mut chain: Vec<usize> = (start..=start + length).collect();
    if random.percent(20) {
        chain[length] = chain[random.below(length)];
    }
    let (a, bound) = (pieces::scale(random), random.between(0, 60_000));
    let moves: Vec<Whole> = (0..length).map(|_| random.between(-3, 3)).collect();
    let reached = bound + a * moves.iter().sum::<Whole>();
    let other = random.percent(30).then(|| random.pick(&[start, 9]));

    let mut stripes = vec![Stripe { x: size, a, y: chain[length], z: other, b: bound }];
    for (at, &m) in moves.iter().enumerate() {
        let scale = if random.percent(6) { 2 } else { 1 };
        stripes.push(Stripe { x: chain[at + 1], a: scale, y: chain[at], z: None, b: m });
    }
    for _ in 0..random.below(3) {
        stripes.push(pieces::stripe(random, &chain));
    }
    let ended = random.percent(25);
    let goal = Stripe { x: size, a, y: chain[0], z: other, b: reached + random.pick(&[0, 0, 0, -1, 1]) };
    vec![asked(random, stripes, ended, goal)]
}

/// A listing whose first point knows the stripes, in any order, and owes the goal at once or at the next point.
pub(super) fn asked(random: &mut Random, mut stripes: Vec<Stripe>, by_ranges: bool, goal: Stripe) -> Vec<u8> {
    let standing = stripes[0];
    let mut draft = Draft::default();
    let offset = goal.b - 1;
    let accesses = random.percent(50) && goal.z.is_none() && (0..=65_535).contains(&offset);
    let instruction = if accesses {
        let table = (goal.x - TRAYS_SIZE) as Whole;
        Instruction::Load { d: 15, width: 1, table, scale: goal.a, i: goal.y, offset }
    } else {
        random.pick(&[Instruction::Jump { target: 1 }, Instruction::Set { d: 15, number: 3 }])
    };
    let point = draft.push(instruction);
    if by_ranges && standing.z.is_none() {
        stripes.remove(0);
        let hi = random.between(0, 20);
        let lo = (standing.b + standing.a * hi).min(65_536);
        point.claim(Claim::Least { v: standing.x, value: lo });
        point.claim(Claim::Most { v: standing.y, value: hi });
    }
    let turned = random.below(stripes.len().max(1));
    stripes.rotate_left(turned);
    stripes.into_iter().for_each(|stripe| point.claim(Claim::Stripe(stripe)));
    let next = draft.push(Instruction::Stop);
    if !accesses {
        next.claim(Claim::Stripe(goal));
    }
    draft.text()
}

/// A load or store at the end of its table, shown by ranges or by a stripe, and right beside it.
pub fn access(random: &mut Random) -> Vec<Vec<u8>> {
    let (a, width) = (pieces::scale(random), pieces::width(random));
    let table = random.between(0, 1);
    let (size, i) = (TRAYS_SIZE + table as usize, random.pick(&[1, 2, 16, 17]));
    let hi = random.between(0, 65_536 / a);
    let needed = a * hi + width;
    let offset = random.pick(&[0, 1, 65_535, (65_536 - needed).max(0)]).min(65_535);
    let beside = random.pick(&[0, 0, 0, 1, -1, -1]);
    let mut draft = Draft::default();
    let point = draft.push(if table == 1 && random.percent(50) {
        Instruction::Store { stored: random.below(VARIABLES), width, scale: a, i, offset }
    } else {
        Instruction::Load { d: 3, width, table, scale: a, i, offset }
    });
    if random.percent(50) {
        let least = needed + offset + beside;
        point.claim(Claim::Most { v: i, value: hi });
        if (0..=65_536).contains(&least) {
            point.claim(Claim::Least { v: size, value: least });
        }
    } else {
        let b = offset + width + beside;
        point.claim(Claim::Stripe(Stripe { x: size, a, y: i, z: None, b }));
    }
    draft.push(Instruction::Stop);
    vec![draft.text()]
}

/// One to five points with random claims, most of them weak, over few variables.
pub fn jumble(random: &mut Random) -> Vec<Vec<u8>> {
    let pool = pieces::pool(random);
    jumble_over(random, &pool, pieces::instruction)
}

/// The same with variables and instructions of one's own.
pub fn jumble_over(random: &mut Random, pool: &[usize], make: Maker) -> Vec<Vec<u8>> {
    let count = 1 + random.below(5);
    let mut draft = Draft::default();
    for at in 0..count {
        let target = random.below(count);
        let last = at + 1 == count;
        let instruction = match random.below(6) {
            0 | 1 if last => Instruction::Jump { target },
            _ if last => Instruction::Stop,
            0 if at > 0 => Instruction::Stop,
            _ => make(random, pool, target),
        };
        let point = draft.push(instruction);
        for _ in 0..random.pick(&[0, 0, 1, 1, 2, 4, 9]) {
            let claim = pieces::claim(random, pool);
            point.claim(if random.percent(70) { weak(claim) } else { claim });
        }
    }
    vec![draft.text()]
}

/// A claim of the same kind that holds of nearly everything.
fn weak(claim: Claim) -> Claim {
    match claim {
        Claim::Least { v, value } => Claim::Least { v, value: value % 2 },
        Claim::Most { v, value } => Claim::Most { v, value: pieces::greatest(v) - value % 2 },
        Claim::Stripe(stripe) => Claim::Stripe(Stripe { b: -stripe.b.abs().max(1 << 44), ..stripe }),
    }
}

/// A register moved by a number, with stripes over it whose bounds come to their limits or go past them.
pub fn shifted(random: &mut Random) -> Vec<Vec<u8>> {
    let kind = random.pick(&[Arithmetic::Add, Arithmetic::Subtract]);
    let by = random.pick(&[0, 1, 2, 3, 1000, (1 << 31) - 1]);
    let mut draft = Draft::default();
    let instruction = Instruction::Compute { kind, d: 1, i: 1, o: Operand::Number(by) };
    let point = draft.push(instruction);
    point.claim(Claim::Least { v: 1, value: by });
    point.claim(Claim::Most { v: 1, value: (1 << 31) + random.between(-1, 1) });
    let pool = random.pick(&[[1, 1, 1], [1, 1, 2]]);
    let moved = |stripe: &Stripe| {
        let times = Whole::from(stripe.y == 1) + Whole::from(stripe.z == Some(1));
        let sign = if kind == Arithmetic::Add { 1 } else { -1 };
        sign * by * (Whole::from(stripe.x == 1) - stripe.a * times)
    };
    let mut goals = Vec::new();
    for _ in 0..1 + random.below(3) {
        let stripe = pieces::stripe(random, &pool);
        let end = pieces::limits(random).bound;
        let after = random.pick(&[end, end, end, -end]) + random.between(-1, 1);
        let b = after - moved(&stripe);
        if Limits::TODAY.has_bound(b) {
            point.claim(Claim::Stripe(Stripe { b, ..stripe }));
            goals.push(Stripe { b: after.clamp(-end, end), ..stripe });
        }
    }
    let next = draft.push(Instruction::Stop);
    goals.into_iter().for_each(|goal| next.claim(Claim::Stripe(goal)));
    vec![draft.text()]
}

//! Stretches of empty points inside routines, as programs that write routines leave them: jumped over, behind branches
//! that are never taken, or behind the last point. Some have a flaw, some are damaged, some are as long as may be.

use super::empty_points::{empty_one, make_empty, make_nearly_empty, owing};
use super::routines::{dealing, routine};
use super::turns::counted;
use super::{damage, nudges, pieces};
use crate::draft::{Draft, DraftPoint};
use crate::random::Random;
use lines::LINE;
use reference::{Arithmetic, Claim, Comparison, Instruction, Operand, Range, REGISTERS, SIZE_LIMIT, TRAYS_SIZE};
use std::ops;

const CHANGES: usize = 8;

/// A branch on a size that is always taken, or never.
fn decided(random: &mut Random, target: usize, taken: bool) -> Instruction {
    let i = TRAYS_SIZE + random.below(2);
    let beyond = SIZE_LIMIT + random.pick(&[1, 1, 2, 5_000]);
    let (kind, number) = match (taken, random.percent(50)) {
        (true, _) => (Comparison::Less, beyond),
        (false, true) => (Comparison::Less, 0),
        (false, false) => (Comparison::Equal, beyond),
    };
    Instruction::Branch { kind, i, target, o: Operand::Number(number) }
}

/// An empty point whose instruction may owe anything and go to any of so many points.
fn dead_point(random: &mut Random, points: usize) -> DraftPoint {
    let (pool, target) = (pieces::pool(random), random.below(points));
    let owes = random.percent(65);
    let instruction = if owes { owing(random, target) } else { pieces::instruction(random, &pool, target) };
    let mut point = DraftPoint::bare(instruction);
    for _ in 0..random.pick(&[0, 0, 0, 1, 2]) {
        point.claim(pieces::claim(random, &pool));
    }
    make_empty(random, &mut point);
    point
}

/// So many empty points for a routine, the last of which leads to no next one.
fn stretch(random: &mut Random, routine: &Draft, count: usize) -> Vec<DraftPoint> {
    let points = routine.points.len() + count;
    let mut stretch: Vec<DraftPoint> = (0..count).map(|_| dead_point(random, points)).collect();
    let target = random.below(points);
    stretch[count - 1].instruction = random.pick(&[Instruction::Stop, Instruction::Jump { target }]);
    stretch
}

/// The routine with the stretch in front of one of its points, or behind the last.
fn insert(random: &mut Random, routine: &Draft, stretch: Vec<DraftPoint>) -> Draft {
    let at = random.below(routine.points.len() + 1);
    insert_at(random, routine, at, stretch)
}

/// The same in front of a point. It passes if the routine does: what leads around the stretch claims what that point
/// claims.
fn insert_at(random: &mut Random, routine: &Draft, at: usize, stretch: Vec<DraftPoint>) -> Draft {
    let mut points = routine.points.clone();
    let claims = points.get(at).map(|point| point.claims.clone());
    let gates = if claims.is_some() { random.pick(&[1, 1, 2, 3]) } else { 0 };
    let dead = at + gates..at + gates + stretch.len();
    for point in &mut points {
        if let Instruction::Jump { target } | Instruction::Branch { target, .. } = &mut point.instruction {
            // what led to the point leads to it still, or to what leads around the stretch
            let moves = *target > at || *target == at && random.percent(50);
            *target += if moves { gates + stretch.len() } else { 0 };
        }
    }
    let around = way_around(random, gates, &dead).into_iter();
    let around = around.map(|instruction| DraftPoint { claims: claims.clone().unwrap_or_default(), instruction });
    let between: Vec<DraftPoint> = around.chain(stretch).collect();
    points.splice(at..at, between);
    Draft { turn: routine.turn, points }
}

/// Branches into the stretch that are never taken, and last what leads over it.
fn way_around(random: &mut Random, gates: usize, dead: &ops::Range<usize>) -> Vec<Instruction> {
    let gate = |random: &mut Random, last: bool| match last {
        false => {
            let anywhere = dead.start + random.below(dead.len());
            let into = random.pick(&[dead.start, anywhere, dead.end - 1]);
            decided(random, into, false)
        }
        true if random.percent(60) => Instruction::Jump { target: dead.end },
        true => decided(random, dead.end, true),
    };
    (1..=gates).map(|at| gate(random, at == gates)).collect()
}

/// A few steps without claims, and STOP.
fn few_steps(random: &mut Random) -> Draft {
    let mut draft = Draft::default();
    for _ in 0..random.below(3) {
        let (d, i) = (random.below(REGISTERS), random.below(REGISTERS));
        draft.push(random.pick(&[Instruction::Copy { d, i }, Instruction::Set { d, number: 7 }]));
    }
    draft.push(Instruction::Stop);
    draft
}

/// A few steps with one stretch or two, of one point to many.
fn steps_with_stretches(random: &mut Random) -> Draft {
    let mut draft = few_steps(random);
    for _ in 0..random.pick(&[1, 1, 2]) {
        let count = random.pick(&[1, 1, 2, 3, 5, 8, 20, 40]);
        let stretch = stretch(random, &draft, count);
        draft = insert(random, &draft, stretch);
    }
    draft
}

/// A routine with one stretch or two.
pub fn routine_with_stretches(random: &mut Random) -> Draft {
    let make = random.pick(&[routine, routine, dealing]);
    let mut draft = make(random);
    for _ in 0..random.pick(&[1, 1, 2]) {
        let count = random.pick(&[1, 2, 3, 6]);
        let stretch = stretch(random, &draft, count);
        draft = insert(random, &draft, stretch);
    }
    draft
}

/// Stretches that are led around, in a few steps.
pub fn skipped(random: &mut Random) -> Vec<Vec<u8>> {
    vec![steps_with_stretches(random).text()]
}

/// The same in routines that do something.
pub fn in_routines(random: &mut Random) -> Vec<Vec<u8>> {
    vec![routine_with_stretches(random).text()]
}

/// Stretches with a point that is not empty, or with a way into them.
pub fn flawed(random: &mut Random) -> Vec<Vec<u8>> {
    let mut draft = steps_with_stretches(random);
    let empty = |point: &DraftPoint| point.known().has_empty_range();
    let (dead, live): (Vec<usize>, Vec<usize>) = (0..draft.points.len()).partition(|&at| empty(&draft.points[at]));
    let (one, other) = (random.pick(&dead), random.pick(&live));
    let last = draft.points.len() - 1;
    match random.below(5) {
        0..=2 => {
            let point = &mut draft.points[one];
            point.claims.clear();
            make_nearly_empty(random, point);
        }
        3 if other < last => {
            let pool = pieces::pool(random);
            let branch = pieces::branch(random, &pool, one);
            draft.points[other].instruction = random.pick(&[Instruction::Jump { target: one }, branch]);
        }
        _ => draft.points[other].instruction = Instruction::Jump { target: one },
    }
    vec![draft.text()]
}

/// Routines with stretches, one number changed in each of several ways.
pub fn nudged(random: &mut Random) -> Vec<Vec<u8>> {
    let text = routine_with_stretches(random).text();
    (0..CHANGES).map(|_| nudges::nudge(random, &text)).collect()
}

/// Stretches with each damage that reading finds, most of them on lines of empty points, and with one register for both
/// results of a DIVM.
pub fn damaged(random: &mut Random) -> Vec<Vec<u8>> {
    let text = steps_with_stretches(random).text();
    let mut texts = damage::each_damage(random, &text);
    let at = random.below(text.len() / LINE) * LINE;
    let mut twice = text;
    twice.splice(at..at, damage::twice(random));
    texts.push(twice);
    texts
}

/// About 512 points, nearly all of them empty; one of them may claim nothing.
pub fn many_points(random: &mut Random) -> Vec<Vec<u8>> {
    let routine = few_steps(random);
    // two claims each, so that the lines are no more than a listing has
    let count = random.pick(&[507, 509, 510, 510, 511, 512, 512]);
    let mut stretch: Vec<DraftPoint> = (0..count).map(|target| DraftPoint::bare(owing(random, target))).collect();
    stretch.iter_mut().for_each(|point| empty_one(random, point));
    stretch[count - 1].instruction = Instruction::Stop;
    if random.percent(25) {
        stretch[random.below(count)].claims.clear();
    }
    // a jump over so many points has a target that is 5
    let behind = routine.points.len();
    let at = if random.percent(70) { behind } else { random.below(behind) };
    vec![insert_at(random, &routine, at, stretch).text()]
}

/// Loops that count down, with a stretch that may count the TURN register too and go back.
pub fn in_loops(random: &mut Random) -> Vec<Vec<u8>> {
    let draft = counted(random).draft;
    let turn = draft.turn.expect("they have a TURN line");
    let count = random.pick(&[1, 2, 3]);
    let mut stretch = stretch(random, &draft, count);
    for point in &mut stretch {
        if point.instruction.written().contains(&turn) && random.percent(75) {
            point.instruction = Instruction::Copy { d: (turn + 1) % REGISTERS, i: turn };
        }
    }
    if random.percent(70) {
        stretch.splice(0..0, counting_back(random, turn, draft.points.len()));
    }
    vec![insert(random, &draft, stretch).text()]
}

/// A count of the TURN register and a way back, both empty: by the register itself or by another. The register's least
/// value is at or beside what is taken.
fn counting_back(random: &mut Random, turn: usize, points: usize) -> [DraftPoint; 2] {
    let number = random.between(1, 5);
    let least = number + random.pick(&[0, 0, 0, 1, -1]);
    let o = Operand::Number(number);
    let subtract = Instruction::Compute { kind: Arithmetic::Subtract, d: turn, i: turn, o };
    let back = Instruction::Jump { target: random.below(points) };
    [subtract, back].map(|instruction| {
        let mut point = DraftPoint::bare(instruction);
        let range = if random.percent(50) {
            Range { lo: least, hi: (least - 1).max(0) }
        } else {
            make_empty(random, &mut point);
            Range { lo: least, hi: reference::MAX }
        };
        point.claim(Claim::Least { v: turn, value: range.lo });
        point.claim(Claim::Most { v: turn, value: range.hi });
        point
    })
}

//! Ways back at and beside being covered: for each thing that covering asks, routines that have it and routines that
//! just miss it.

use super::pieces;
use super::routines::push;
use super::turns::{branch, count, counted, counted_with, forward, go_to, nearly_all, step, Count, Counted};
use crate::draft::{Draft, DraftPoint};
use crate::random::Random;
use reference::{Arithmetic, Claim, Comparison, Instruction, Operand, MAX, REGISTERS, VARIABLES};

/// A change of a routine whose ways back are all covered.
type Change = fn(&mut Random, &mut Counted);

pub fn loops(random: &mut Random) -> Vec<Vec<u8>> {
    vec![counted(random).draft.text()]
}

pub fn nearly_all_steps(random: &mut Random) -> Vec<Vec<u8>> {
    vec![nearly_all(random).draft.text()]
}

pub fn nothing_back(random: &mut Random) -> Vec<Vec<u8>> {
    vec![forward(random).text()]
}

fn changed(random: &mut Random, change: Change) -> Vec<Vec<u8>> {
    let mut routine = counted(random);
    change(random, &mut routine);
    vec![routine.draft.text()]
}

/// The points that go back.
fn backs(draft: &Draft) -> Vec<usize> {
    let goes_back = |at: &usize| draft.points[*at].instruction.target().is_some_and(|target| target <= *at);
    (0..draft.points.len()).filter(goes_back).collect()
}

/// One of them that has a point before it.
fn some_back(random: &mut Random, draft: &Draft) -> usize {
    let backs: Vec<usize> = backs(draft).into_iter().filter(|&at| at > 0).collect();
    random.pick(&backs)
}

/// Puts an instruction in front of a point, with the same claims. What led to the point leads behind the new one.
fn insert(draft: &mut Draft, at: usize, instruction: Instruction) {
    for point in &mut draft.points {
        if let Some(target) = point.instruction.target().filter(|&target| target >= at) {
            go_to(&mut point.instruction, target + 1);
        }
    }
    let claims = draft.points[at].claims.clone();
    draft.points.insert(at, DraftPoint { claims, instruction });
}

/// Behind the last point, where nothing leads, between a STOP and a STOP.
fn append(draft: &mut Draft, claims: &[Claim], instruction: Instruction) {
    if !matches!(draft.points.last().map(|point| point.instruction), Some(Instruction::Stop)) {
        draft.push(Instruction::Stop);
    }
    let point = draft.push(instruction);
    claims.iter().for_each(|&claim| point.claim(claim));
    draft.push(Instruction::Stop);
}

/// The point just before a way back: another step between, another instruction in its place, or the two in front of the
/// way back exchanged.
pub fn just_before(random: &mut Random) -> Vec<Vec<u8>> {
    changed(random, |random, Counted { draft, count }| {
        let at = some_back(random, draft);
        let other = step(random, count);
        match random.below(6) {
            0 => insert(draft, at, other),
            1 => insert(draft, at - 1, other),
            2 => draft.points[at - 1].instruction = other,
            3 => draft.points[at - 1].instruction = branch(random, count, at + 1),
            4 if at >= 2 => {
                let (first, second) = (draft.points[at - 2].instruction, draft.points[at - 1].instruction);
                (draft.points[at - 2].instruction, draft.points[at - 1].instruction) = (second, first);
            }
            _ => {}
        }
    })
}

/// Jumps and branches to a way back and to its neighbours, from before it, from behind, and its own.
pub fn targets(random: &mut Random) -> Vec<Vec<u8>> {
    changed(random, target_beside)
}

fn target_beside(random: &mut Random, Counted { draft, count }: &mut Counted) {
    let at = some_back(random, draft);
    let beside = random.pick(&[at - 1, at, at, at + 1]);
    let jumps: Vec<usize> = (0..at).filter(|&from| draft.points[from].instruction.target().is_some()).collect();
    let instruction = if random.percent(30) { Instruction::Jump { target: 0 } } else { branch(random, count, 0) };
    match random.below(6) {
        0 => go_to(&mut draft.points[at].instruction, random.pick(&[at, at - 1])),
        1 | 2 if !jumps.is_empty() => {
            let from = random.pick(&jumps);
            go_to(&mut draft.points[from].instruction, beside);
        }
        3 => {
            append(draft, &count.kept, instruction);
            let last = draft.points.len() - 2;
            go_to(&mut draft.points[last].instruction, random.pick(&[beside, last + 1]));
        }
        4 => {}
        _ => {
            let from = random.below(at);
            insert(draft, from, instruction);
            go_to(&mut draft.points[from].instruction, (beside + 1).max(from + 1));
        }
    }
}

/// Every kind of instruction that writes, of the TURN register or of another: in a loop, before it, or where nothing
/// leads.
pub fn writers(random: &mut Random) -> Vec<Vec<u8>> {
    changed(random, one_more_writer)
}

fn one_more_writer(random: &mut Random, Counted { draft, count }: &mut Counted) {
    let register = if random.percent(80) { count.turn } else { count.scratch[0] };
    let instruction = writer(random, count, register);
    match random.below(4) {
        0 => {
            let at = random.below(draft.points.len());
            insert(draft, at, instruction);
        }
        1 => draft.points[0].instruction = instruction,
        _ => append(draft, &count.inside(), instruction),
    }
}

fn writer(random: &mut Random, count: &Count, d: usize) -> Instruction {
    let (other, least) = (count.scratch[1], count.least);
    let compute = |kind, i, o| Instruction::Compute { kind, d, i, o };
    match random.below(14) {
        0 => Instruction::Set { d, number: random.pick(&[0, 1, least]) },
        1 => Instruction::Copy { d, i: d },
        2 => Instruction::Copy { d, i: other },
        3 => compute(Arithmetic::Add, d, Operand::Number(random.pick(&[0, 1]))),
        4 => compute(Arithmetic::Subtract, d, Operand::Number(0)),
        5 => compute(Arithmetic::Subtract, other, Operand::Number(least)),
        6 => compute(Arithmetic::Subtract, d, Operand::Variable(random.pick(&[d, other]))),
        7 => compute(Arithmetic::Multiply, d, Operand::Number(random.pick(&[0, 1]))),
        8 => compute(Arithmetic::Divide, d, Operand::Number(random.pick(&[1, 2]))),
        9 => Instruction::DivMod { q: d, i: d, r: other, o: Operand::Number(2) },
        10 => Instruction::DivMod { q: other, i: d, r: d, o: Operand::Number(2) },
        11 if count.reads => Instruction::Load { d, width: 1, table: 0, scale: 1, i: count.index, offset: 0 },
        12 if count.reads => Instruction::Store { stored: d, width: 1, scale: 1, i: count.index, offset: 0 },
        _ => compute(Arithmetic::Subtract, d, Operand::Number(random.pick(&[1, least, least + 1]).min(MAX))),
    }
}

/// What is taken off, at and beside what the point claims to be there, which may be nothing or less than the test shows.
pub fn numbers(random: &mut Random) -> Vec<Vec<u8>> {
    let least = random.pick(&[1, 1, 2, 3, 9, 65_536, 1 << 31, MAX - 1, MAX]);
    let most = least.saturating_mul(random.between(1, 6)).min(MAX);
    let mut count = count(random, most, least);
    count.kept.retain(|claim| *claim != Claim::Most { v: count.turn, value: most });
    let loops = random.pick(&[1, 1, 2]);
    let Counted { mut draft, count } = counted_with(random, count, loops);
    let at = some_back(random, &draft) - 1;
    let point = &mut draft.points[at];
    let claimed = random.pick(&[least, least, least, least - 1, 0]);
    let taken = random.pick(&[claimed, claimed, claimed - 1, claimed + 1, least, 1, 0, MAX]).clamp(0, MAX);
    point.instruction = count.subtract(taken);
    point.claims.retain(|claim| !matches!(*claim, Claim::Least { v, .. } if v == count.turn));
    if claimed > 0 || random.percent(50) {
        point.claim(Claim::Least { v: count.turn, value: claimed });
    }
    vec![draft.text()]
}

/// Another register in a SUBW or in the TURN line, an operand that is a variable, another calculation, no TURN line.
pub fn registers(random: &mut Random) -> Vec<Vec<u8>> {
    changed(random, other_register)
}

fn other_register(random: &mut Random, Counted { draft, count }: &mut Counted) {
    let at = some_back(random, draft) - 1;
    let (turn, other, o) = (count.turn, count.scratch[0], Operand::Number(count.least));
    let compute = |kind, d, i, o| Instruction::Compute { kind, d, i, o };
    let instruction = match random.below(8) {
        0 => compute(Arithmetic::Subtract, other, turn, o),
        1 => compute(Arithmetic::Subtract, turn, other, o),
        2 => compute(Arithmetic::Subtract, turn, turn, Operand::Variable(other)),
        3 => compute(Arithmetic::Subtract, other, other, o),
        4 => compute(Arithmetic::Add, turn, turn, o),
        5 => return draft.turn = None,
        6 => return draft.turn = Some(random.pick(&[other, count.index, (turn + 1) % REGISTERS])),
        _ => return,
    };
    draft.points[at].instruction = instruction;
}

/// A branch in place of a JUMP back, or one more that goes back to its own point or an earlier one, often never taken.
pub fn branches(random: &mut Random) -> Vec<Vec<u8>> {
    changed(random, branch_back)
}

fn branch_back(random: &mut Random, Counted { draft, count }: &mut Counted) {
    let never = Instruction::Branch { kind: Comparison::Less, i: count.turn, target: 0, o: Operand::Number(0) };
    let mut instruction = if random.percent(60) { never } else { branch(random, count, 0) };
    match random.below(5) {
        0 => {
            let at = some_back(random, draft);
            go_to(&mut instruction, draft.points[at].instruction.target().unwrap_or(at));
            draft.points[at].instruction = instruction;
            draft.push(Instruction::Stop);
        }
        1 => {
            append(draft, &count.kept, instruction);
            let at = draft.points.len() - 2;
            go_to(&mut draft.points[at].instruction, random.pick(&[0, at - 1, at, at + 1]));
        }
        2 => {}
        _ => {
            let at = random.below(draft.points.len());
            insert(draft, at, instruction);
            let earlier = random.below(at + 1);
            go_to(&mut draft.points[at].instruction, random.pick(&[at, earlier, earlier, at + 1]));
        }
    }
}

/// Two or three loops, and several changes of any kind.
pub fn several(random: &mut Random) -> Vec<Vec<u8>> {
    let (most, least) = (random.between(1, 6), 1);
    let count = count(random, most, least);
    let loops = random.pick(&[2, 2, 3]);
    let mut routine = counted_with(random, count, loops);
    for _ in 0..random.below(4) {
        let change = random.pick(&[target_beside, branch_back, branch_back, one_more_writer]);
        if backs(&routine.draft).iter().any(|&at| at > 0) {
            change(random, &mut routine);
        }
    }
    vec![routine.draft.text()]
}

/// A way back where nothing leads, covered or not, along an edge that may be impossible.
pub fn not_reached(random: &mut Random) -> Vec<Vec<u8>> {
    let (most, by) = (random.between(0, 6), random.between(1, 3));
    let mut count = count(random, most, by);
    count.kept.push(Claim::Most { v: count.turn, value: most });
    let other = count.scratch[0];
    let mut draft = Draft::default();
    if random.percent(50) {
        draft = counted_with(random, count_again(&count), 1).draft;
    }
    draft.turn = random.percent(85).then_some(count.turn);
    push(&mut draft, Instruction::Stop, &count.kept);
    push(&mut draft, count.subtract(random.pick(&[by, by, by, 0])), &count.inside());
    // to points that claim no least value, and to itself
    let open = |at: &usize| !draft.points[*at].claims.contains(&count.at_least());
    let targets: Vec<usize> = (0..draft.points.len()).filter(open).chain([draft.points.len()]).collect();
    let target = random.pick(&targets);
    let back = if random.percent(75) { Instruction::Jump { target } } else { branch(random, &count, target) };
    push(&mut draft, back, &count.kept);
    if random.percent(40) {
        // no value is between these
        let point = draft.points.last_mut().expect("one was pushed");
        point.claim(Claim::Least { v: other, value: 1 });
        point.claim(Claim::Most { v: other, value: 0 });
    }
    if !matches!(back, Instruction::Jump { .. }) || random.percent(50) {
        draft.push(Instruction::Stop);
    }
    vec![draft.text()]
}

fn count_again(count: &Count) -> Count {
    Count { scratch: count.scratch.clone(), kept: count.kept.clone(), ..*count }
}

/// Bounds from the least to the greatest: any greatest value at the start, claimed there or not, and any least one.
pub fn greatest_values(random: &mut Random) -> Vec<Vec<u8>> {
    let any = pieces::value(random);
    let most = random.pick(&[0, 1, 2, 65_535, 65_536, 1 << 31, MAX - 1, MAX, any]);
    let least = (most / 4).max(1) + random.between(0, most / 2);
    let least = if random.percent(25) { 1 } else { least };
    let count = count(random, most, least);
    let loops = random.pick(&[1, 1, 2]);
    let Counted { mut draft, count } = counted_with(random, count, loops);
    let first = &mut draft.points[0];
    if random.percent(20) {
        first.claims.retain(|claim| !matches!(*claim, Claim::Most { v, .. } if v == count.turn));
    }
    if random.percent(30) {
        first.claim(Claim::Most { v: count.scratch[0], value: pieces::value(random) });
    }
    vec![draft.text()]
}

/// One change of any kind.
pub fn any_change(random: &mut Random) -> Vec<Vec<u8>> {
    let makers = [just_before, targets, writers, numbers, registers, branches, several, not_reached, greatest_values];
    random.pick(&makers)(random)
}

/// Counts of a register behind what may show that there is something to count, each with a jump to anywhere, among
/// random points.
pub fn among_blocks(random: &mut Random) -> Vec<Vec<u8>> {
    let turn = random.below(REGISTERS);
    let mut pool = vec![(turn + 1) % REGISTERS, random.below(VARIABLES)];
    if random.percent(20) {
        pool.push(turn);
    }
    let blocks: Vec<bool> = (0..1 + random.below(4)).map(|_| random.percent(65)).collect();
    let points = blocks.iter().map(|&counts| if counts { 3 } else { 1 }).sum::<usize>() + 1;
    let mut draft = Draft { turn: random.percent(95).then_some(turn), ..Draft::default() };
    for counts in blocks {
        if counts {
            count_block(random, &mut draft, turn, points);
        } else {
            let target = random.below(points);
            let copy = Instruction::Copy { d: pool[0], i: pool[1] };
            draft.push(if random.percent(50) { copy } else { pieces::instruction(random, &pool, target) });
        }
    }
    let target = random.below(points);
    draft.push(if random.percent(80) { Instruction::Stop } else { Instruction::Jump { target } });
    if random.percent(30) {
        draft.points[0].claim(Claim::Most { v: turn, value: random.pick(&[0, 1, 4, MAX]) });
    }
    vec![draft.text()]
}

fn count_block(random: &mut Random, draft: &mut Draft, turn: usize, points: usize) {
    let [first, second] = [0, 1].map(|_| random.below(points));
    let leaves = |kind, number| Instruction::Branch { kind, i: turn, target: first, o: Operand::Number(number) };
    let guards = [
        leaves(Comparison::Less, 1),
        leaves(Comparison::Equal, 0),
        Instruction::Stop,
        Instruction::Jump { target: first },
    ];
    draft.push(random.pick(&guards));
    let o = Operand::Number(random.pick(&[1, 1, 1, 1, 1, 2]));
    let point = draft.push(Instruction::Compute { kind: Arithmetic::Subtract, d: turn, i: turn, o });
    if random.percent(90) {
        point.claim(Claim::Least { v: turn, value: 1 });
    }
    draft.push(Instruction::Jump { target: second });
}

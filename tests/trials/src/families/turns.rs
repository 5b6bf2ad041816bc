//! Routines under a TURN line: loops that count its register down, one after the other or one in the other, and routines
//! in which nothing goes back. Bytes of the tables decide which way they take.

use super::pieces;
use super::routines::{claimed, distinct_registers, push};
use crate::draft::Draft;
use crate::random::Random;
use reference::{Arithmetic, Claim, Comparison, Instruction, Operand, Whole, MAX, RESULTS_SIZE, TRAYS_SIZE};

/// Both tables have at least so many bytes where a routine reads them.
const BYTES: Whole = 4;
/// A routine with a larger count than this takes more than 1 off in each round.
const FEW_ROUNDS: Whole = 8;

/// What the loops of a routine have in common.
pub struct Count {
    /// The TURN register.
    pub turn: usize,
    /// The greatest value that it has at the start.
    pub most: Whole,
    /// Each loop is left where it is below this.
    pub least: Whole,
    /// Registers that may be written in any way.
    pub scratch: Vec<usize>,
    /// A register that is never written, an index into both tables where `reads` holds.
    pub index: usize,
    pub reads: bool,
    /// Claimed at every point.
    pub kept: Vec<Claim>,
}

/// A routine with a bound, and what its loops count.
pub struct Counted {
    pub draft: Draft,
    pub count: Count,
}

impl Count {
    pub fn at_least(&self) -> Claim {
        Claim::Least { v: self.turn, value: self.least }
    }

    /// What is claimed at every point where the register has not been found too small.
    pub fn inside(&self) -> Vec<Claim> {
        [&self.kept[..], &[self.at_least()]].concat()
    }

    pub fn subtract(&self, number: Whole) -> Instruction {
        let o = Operand::Number(number);
        Instruction::Compute { kind: Arithmetic::Subtract, d: self.turn, i: self.turn, o }
    }

    /// Whether a way back may lead to point 0.
    fn keeps_most(&self) -> bool {
        self.kept.contains(&Claim::Most { v: self.turn, value: self.most })
    }
}

/// A few rounds of 1 or a little more, or of very much; seldom many rounds, or as many as the register has values.
fn rounds(random: &mut Random) -> (Whole, Whole) {
    let few = random.between(0, FEW_ROUNDS);
    match random.below(20) {
        0..=9 => (few, 1),
        10..=12 => (few, random.between(1, 3)),
        13 => (random.between(10, 60), 1),
        14 => (MAX, 1),
        15 => (MAX, MAX - random.between(0, 1)),
        _ => {
            let most = random.pick(&[MAX, MAX - 1, 1 << 31, (1 << 31) - 1, 65_536, 1_000]);
            (most, most / FEW_ROUNDS + random.between(0, most / 2))
        }
    }
}

pub fn count(random: &mut Random, most: Whole, least: Whole) -> Count {
    let registers = distinct_registers(random);
    let (turn, index, scratch) = (registers[0], registers[1], registers[2..].to_vec());
    let reads = random.percent(60);
    let mut kept = Vec::new();
    if reads {
        kept.extend([TRAYS_SIZE, RESULTS_SIZE].map(|v| Claim::Least { v, value: BYTES }));
        kept.push(Claim::Most { v: index, value: BYTES - 1 });
    }
    if random.percent(40) {
        kept.push(Claim::Most { v: turn, value: most });
    }
    Count { turn, most, least, scratch, index, reads, kept }
}

/// One to three loops between straight steps.
pub fn counted(random: &mut Random) -> Counted {
    let (most, least) = rounds(random);
    let count = count(random, most, least);
    let loops = random.pick(&[1, 1, 1, 2, 2, 3]);
    counted_with(random, count, loops)
}

pub fn counted_with(random: &mut Random, count: Count, loops: usize) -> Counted {
    let mut draft = Draft { turn: Some(count.turn), ..Draft::default() };
    let before = if count.keeps_most() { random.below(3) } else { 1 + random.below(2) };
    straight(random, &mut draft, &count, before);
    for _ in 0..loops {
        loop_down(random, &mut draft, &count, 1);
        let between = random.below(2);
        straight(random, &mut draft, &count, between);
    }
    if ends(&draft) || random.percent(70) {
        push(&mut draft, Instruction::Stop, &count.kept);
    }
    claim_start(random, &mut draft, &count);
    if random.percent(15) {
        draft = claimed(random, draft);
    }
    Counted { draft, count }
}

/// Whether a STOP is missing at the end.
fn ends(draft: &Draft) -> bool {
    let goes_there = |target: usize| target == draft.points.len();
    let last = draft.points.last().map(|point| point.instruction);
    !matches!(last, Some(Instruction::Jump { .. } | Instruction::Stop))
        || draft.points.iter().any(|point| point.instruction.target().is_some_and(goes_there))
}

/// The greatest value at the start, and the least where no way back leads there; then it may be counted down at once.
fn claim_start(random: &mut Random, draft: &mut Draft, count: &Count) {
    let first = &mut draft.points[0];
    first.claim(Claim::Most { v: count.turn, value: count.most });
    if !count.keeps_most() && random.percent(40) {
        let value = random.pick(&[count.most, count.most, count.most / 2, 1]).min(count.most);
        first.claim(Claim::Least { v: count.turn, value });
        if value >= count.least && random.percent(50) {
            first.instruction = count.subtract(count.least);
        }
    }
}

fn straight(random: &mut Random, draft: &mut Draft, count: &Count, steps: usize) {
    for _ in 0..steps {
        push(draft, step(random, count), &count.kept);
    }
}

/// A step that writes neither the TURN register nor the index.
pub fn step(random: &mut Random, count: &Count) -> Instruction {
    let (d, other) = (random.pick(&count.scratch), random.pick(&count.scratch));
    let i = random.pick(&[other, other, count.turn, count.index, TRAYS_SIZE, RESULTS_SIZE]);
    let kinds = [Arithmetic::Add, Arithmetic::Subtract, Arithmetic::Multiply];
    match random.below(10) {
        0 => Instruction::Set { d, number: pieces::value(random) },
        1 => Instruction::Copy { d, i },
        2..=4 => Instruction::Compute { kind: random.pick(&kinds), d, i, o: operand(random, count) },
        5 => {
            let o = Operand::Number(random.between(1, 300));
            Instruction::Compute { kind: Arithmetic::Divide, d, i, o }
        }
        6 => {
            let r = random.pick(&[count.scratch[0], count.scratch[1]]);
            let q = if r == d { count.scratch[2] } else { d };
            Instruction::DivMod { q, i, r, o: Operand::Number(random.between(1, 300)) }
        }
        _ if !count.reads => Instruction::Copy { d, i },
        7 => Instruction::Store { stored: i, width: 1, scale: 1, i: count.index, offset: 0 },
        _ => Instruction::Load { d, width: 1, table: random.between(0, 1), scale: 1, i: count.index, offset: 0 },
    }
}

fn operand(random: &mut Random, count: &Count) -> Operand {
    if random.percent(40) {
        return Operand::Variable(random.pick(&[count.scratch[0], count.scratch[1], count.turn, RESULTS_SIZE]));
    }
    Operand::Number(random.pick(&[0, 1, 2, 127, 128, 255, MAX]))
}

/// A branch on a scratch register; its target is set later where it is not known.
pub fn branch(random: &mut Random, count: &Count, target: usize) -> Instruction {
    let kind = random.pick(&[Comparison::Less, Comparison::Equal]);
    Instruction::Branch { kind, i: random.pick(&count.scratch), target, o: operand(random, count) }
}

/// A loop that is tested before its body or after it, and a shorter one inside that now and then. It is left for the
/// point behind it.
fn loop_down(random: &mut Random, draft: &mut Draft, count: &Count, deeper: usize) {
    let head = draft.points.len();
    let mut exits = Vec::new();
    if random.percent(50) {
        test(random, draft, count, &mut exits);
        body(random, draft, count, &count.inside(), &mut exits);
    } else {
        body(random, draft, count, &count.kept, &mut exits);
        if deeper > 0 && random.percent(25) {
            loop_down(random, draft, count, deeper - 1);
        }
        test(random, draft, count, &mut exits);
    }
    let number = random.pick(&[count.least, count.least, count.least, count.least / 2]).max(1);
    push(draft, count.subtract(number), &count.inside());
    push(draft, Instruction::Jump { target: head }, &count.kept);
    let behind = draft.points.len();
    exits.into_iter().for_each(|at: usize| go_to(&mut draft.points[at].instruction, behind));
}

pub fn go_to(instruction: &mut Instruction, to: usize) {
    if let Instruction::Jump { target } | Instruction::Branch { target, .. } = instruction {
        *target = to;
    }
}

/// Goes on where the register has what a round takes off; else the loop is left, or the routine stops.
fn test(random: &mut Random, draft: &mut Draft, count: &Count, exits: &mut Vec<usize>) {
    let at = draft.points.len();
    let leave = |kind, number| Instruction::Branch { kind, i: count.turn, target: 0, o: Operand::Number(number) };
    match if count.least == 1 { random.below(3) } else { 0 } {
        0 => push(draft, leave(Comparison::Less, count.least), &count.kept),
        1 => push(draft, leave(Comparison::Equal, 0), &count.kept),
        _ => {
            // what is above anything is at least 1
            let (i, o) = (random.pick(&count.scratch), Operand::Variable(count.turn));
            push(draft, Instruction::Branch { kind: Comparison::Less, i, target: at + 2, o }, &count.kept);
            if random.percent(30) {
                return push(draft, Instruction::Stop, &count.kept);
            }
            push(draft, Instruction::Jump { target: 0 }, &count.kept);
            return exits.push(at + 1);
        }
    }
    exits.push(at);
}

/// A few steps, with branches to later ones, to the point behind them, and out of the loop.
fn body(random: &mut Random, draft: &mut Draft, count: &Count, claims: &[Claim], exits: &mut Vec<usize>) {
    let steps = random.below(5);
    let end = draft.points.len() + steps;
    for at in draft.points.len()..end {
        if !random.percent(25) {
            push(draft, step(random, count), claims);
            continue;
        }
        let target = at + 1 + random.below(end - at);
        push(draft, branch(random, count, target), claims);
        if random.percent(20) {
            exits.push(at);
        }
    }
}

/// One loop with a long body and few rounds, so that most points are passed in every round, the last one too.
pub fn nearly_all(random: &mut Random) -> Counted {
    let most = random.between(0, 6);
    let count = count(random, most, 1);
    let mut draft = Draft { turn: Some(count.turn), ..Draft::default() };
    straight(random, &mut draft, &count, 1);
    let head = if count.keeps_most() { random.below(2) } else { 1 };
    let steps = most as usize + random.below(4);
    straight(random, &mut draft, &count, steps);
    let mut exits = Vec::new();
    test(random, &mut draft, &count, &mut exits);
    push(&mut draft, count.subtract(1), &count.inside());
    push(&mut draft, Instruction::Jump { target: head }, &count.kept);
    let behind = draft.points.len();
    exits.into_iter().for_each(|at| go_to(&mut draft.points[at].instruction, behind));
    push(&mut draft, Instruction::Stop, &[]);
    draft.points[0].claim(Claim::Most { v: count.turn, value: most });
    Counted { draft, count }
}

/// Steps, branches and jumps to later points, writes of the TURN register among them; with and without a TURN line.
pub fn forward(random: &mut Random) -> Draft {
    let most = pieces::value(random);
    let mut count = count(random, most, 1);
    count.kept.retain(|claim| *claim != Claim::Most { v: count.turn, value: most });
    count.scratch.push(count.turn);
    let steps = random.below(10);
    let mut draft = Draft { turn: random.percent(60).then_some(count.turn), ..Draft::default() };
    for at in 0..steps {
        let target = at + 1 + random.below(steps - at);
        let instruction = match random.below(10) {
            0 => Instruction::Jump { target },
            1..=3 => branch(random, &count, target),
            4 => Instruction::Stop,
            _ => step(random, &count),
        };
        push(&mut draft, instruction, &count.kept);
    }
    push(&mut draft, Instruction::Stop, &count.kept);
    if random.percent(50) {
        draft.points[0].claim(Claim::Most { v: count.turn, value: most });
    }
    draft
}

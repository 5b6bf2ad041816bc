//! Routines that pass: guarded loops over a table with the stripes they need, arithmetic around them, and claims
//! taken from what each step lets one know. Claims that do not hold are dropped until the rest passes.

use super::pieces;
use crate::draft::{Draft, DraftPoint};
use crate::random::Random;
use reference::refusals::{ACCESS_MAY_LEAVE, CLAIM_DOES_NOT_FOLLOW, DIVISOR_MAY_BE_ZERO, EMPTY_START};
use reference::{
    check, edges, Arithmetic, Claim, Comparison, Instruction, Known, Limits, Operand, Stripe, Whole, RESULTS_SIZE,
    TRAYS_SIZE, VARIABLES,
};

/// The index and the count of a routine's loops come first among its registers.
const CONTROL: usize = 2;

/// One routine that passes.
pub fn passing(random: &mut Random) -> Vec<Vec<u8>> {
    vec![routine(random).text()]
}

/// One that divides with remainder.
pub fn dealing_passing(random: &mut Random) -> Vec<Vec<u8>> {
    vec![dealing(random).text()]
}

/// A loop over one table: an index below a count of records, a table and a scale.
pub struct Loop {
    pub index: usize,
    pub count: usize,
    pub size: usize,
    pub scale: Whole,
    /// The bytes after the last record that are there too.
    pub room: Whole,
}

impl Loop {
    /// Every record counted lies in the table.
    fn whole(&self) -> Claim {
        Claim::Stripe(Stripe { x: self.size, a: self.scale, y: self.count, z: None, b: self.room })
    }

    /// The record at the index lies in the table.
    fn here(&self) -> Claim {
        Claim::Stripe(Stripe { x: self.size, a: self.scale, y: self.index, z: None, b: self.scale + self.room })
    }

    /// The index is below the count.
    fn below(&self) -> Claim {
        Claim::Stripe(Stripe { x: self.count, a: 1, y: self.index, z: None, b: 1 })
    }

    /// An access of the record at the index, or of the room behind it.
    fn access(&self, random: &mut Random, scratch: &[usize]) -> Instruction {
        let widths: Vec<Whole> = [1, 2, 4].into_iter().filter(|&width| width <= self.scale + self.room).collect();
        let width = random.pick(&widths);
        let offset = random.between(0, self.scale + self.room - width);
        if self.size == RESULTS_SIZE && random.percent(60) {
            let stored = random.pick(scratch);
            return Instruction::Store { stored, width, scale: self.scale, i: self.index, offset };
        }
        let table = (self.size - TRAYS_SIZE) as Whole;
        Instruction::Load { d: random.pick(scratch), width, table, scale: self.scale, i: self.index, offset }
    }
}

/// A whole routine: a few straight steps, one or two loops, and STOP.
pub fn routine(random: &mut Random) -> Draft {
    let registers = distinct_registers(random);
    let scale = random.pick(&[1, 2, 3, 4, 8, 16, 255, 256, 300, 4_095]);
    let draft = unclaimed(random, &registers, scale);
    claimed(random, draft)
}

/// A routine over records of 256 to 4,095 bytes.
pub fn long_records(random: &mut Random) -> Draft {
    let registers = distinct_registers(random);
    let any = random.between(256, 4_095);
    let scale = random.pick(&[256, 257, 300, 512, 4_094, 4_095, any]);
    let draft = unclaimed(random, &registers, scale);
    claimed(random, draft)
}

/// A routine that divides with remainder.
pub fn dealing(random: &mut Random) -> Draft {
    let registers = distinct_registers(random);
    let scale = random.pick(&[1, 2, 3, 4, 8, 16, 255]);
    let mut draft = unclaimed(random, &registers, scale);
    draft.points.iter_mut().for_each(|point| deal(random, &registers[CONTROL..], &mut point.instruction));
    claimed(random, draft)
}

/// Divisions keep what is left over; some other calculations become such divisions, by a number.
fn deal(random: &mut Random, scratch: &[usize], instruction: &mut Instruction) {
    let Instruction::Compute { kind, d: q, i, o } = *instruction else { return };
    let o = match kind {
        Arithmetic::Divide => o,
        _ if scratch.contains(&q) && random.percent(40) => Operand::Number(random.between(1, 300)),
        _ => return,
    };
    let others: Vec<usize> = scratch.iter().copied().filter(|&other| other != q).collect();
    *instruction = Instruction::DivMod { q, i, r: random.pick(&others), o };
}

/// The steps with the claims that the loops need.
fn unclaimed(random: &mut Random, registers: &[usize], scale: Whole) -> Draft {
    let (control, scratch) = registers.split_at(CONTROL);
    let mut draft = Draft::default();
    let over = Loop {
        index: control[0],
        count: control[1],
        size: random.pick(&[TRAYS_SIZE, RESULTS_SIZE]),
        scale,
        room: random.between(0, 6),
    };
    straight(random, &mut draft, scratch, &[over.whole()]);
    for _ in 0..1 + random.below(2) {
        let body = 1 + random.below(5);
        guarded_loop(random, &mut draft, &over, scratch, body);
        straight(random, &mut draft, scratch, &[over.whole()]);
    }
    draft.push(Instruction::Stop);
    draft
}

/// More claims, of which those are kept that pass.
pub(super) fn claimed(random: &mut Random, mut draft: Draft) -> Draft {
    let share = random.pick(&[10, 25, 40]);
    spread_claims(random, &mut draft, share);
    settle(&mut draft);
    draft
}

pub(super) fn distinct_registers(random: &mut Random) -> Vec<usize> {
    let mut registers: Vec<usize> = (0..16).collect();
    for at in 0..6 {
        let other = at + random.below(16 - at);
        registers.swap(at, other);
    }
    registers.truncate(5 + random.below(2));
    registers
}

pub(super) fn push(draft: &mut Draft, instruction: Instruction, claims: &[Claim]) {
    let point = draft.push(instruction);
    claims.iter().for_each(|&claim| point.claim(claim));
}

/// A few steps over scratch registers that keep the claims given.
fn straight(random: &mut Random, draft: &mut Draft, scratch: &[usize], kept: &[Claim]) {
    for _ in 0..random.below(4) {
        step(random, draft, scratch, kept);
    }
}

/// One step over scratch registers, or a division behind its guard.
fn step(random: &mut Random, draft: &mut Draft, scratch: &[usize], kept: &[Claim]) {
    match random.below(8) {
        0 => division(random, draft, scratch, kept),
        1 => {
            let number = pieces::value(random);
            push(draft, Instruction::Set { d: random.pick(scratch), number }, kept);
        }
        2 | 3 => {
            let i = if random.percent(80) { random.pick(scratch) } else { random.below(VARIABLES) };
            push(draft, Instruction::Copy { d: random.pick(scratch), i }, kept);
        }
        _ => push(draft, calculation(random, scratch), kept),
    }
}

fn calculation(random: &mut Random, scratch: &[usize]) -> Instruction {
    let kind = random.pick(&[Arithmetic::Add, Arithmetic::Subtract, Arithmetic::Multiply]);
    let o = if random.percent(50) {
        Operand::Variable(random.pick(scratch))
    } else {
        Operand::Number(random.between(0, 300))
    };
    Instruction::Compute { kind, d: random.pick(scratch), i: random.pick(scratch), o }
}

/// A division by a number, or by a register that a branch has shown not to be 0.
fn division(random: &mut Random, draft: &mut Draft, scratch: &[usize], kept: &[Claim]) {
    let (d, i, by) = (random.pick(scratch), random.pick(scratch), random.pick(scratch));
    let divide = |o| Instruction::Compute { kind: Arithmetic::Divide, d, i, o };
    if random.percent(40) {
        return push(draft, divide(Operand::Number(random.between(1, 300))), kept);
    }
    let target = draft.points.len() + 2;
    let guard = Instruction::Branch { kind: Comparison::Equal, i: by, target, o: Operand::Number(0) };
    push(draft, guard, kept);
    push(draft, divide(Operand::Variable(by)), &[&[Claim::Least { v: by, value: 1 }], kept].concat());
    push(draft, Instruction::Copy { d, i: d }, kept);
}

/// Index 0; while index below count: the body; index plus 1. Its first point is the next one of the draft.
pub fn guarded_loop(random: &mut Random, draft: &mut Draft, over: &Loop, scratch: &[usize], body: usize) {
    let whole = [over.whole()];
    let inside = [over.whole(), over.here(), over.below()];
    push(draft, Instruction::Set { d: over.index, number: 0 }, &whole);
    let head = draft.points.len();
    let o = Operand::Variable(over.count);
    push(draft, Instruction::Branch { kind: Comparison::Less, i: over.index, target: head + 2, o }, &whole);
    push(draft, Instruction::Jump { target: 0 }, &whole);
    for _ in 0..body {
        if random.percent(50) {
            push(draft, over.access(random, scratch), &inside);
        } else {
            step(random, draft, scratch, &inside);
        }
    }
    let next = Instruction::Compute { kind: Arithmetic::Add, d: over.index, i: over.index, o: Operand::Number(1) };
    push(draft, next, &[over.whole(), over.below()]);
    push(draft, Instruction::Jump { target: head }, &whole);
    draft.points[head + 1].instruction = Instruction::Jump { target: draft.points.len() };
}

/// Adds, point by point, some of what is known after the step before, exact or with slack.
fn spread_claims(random: &mut Random, draft: &mut Draft, share: usize) {
    for at in 0..draft.points.len() - 1 {
        let point = &draft.points[at];
        let edges = edges(at, &point.instruction, &point.known());
        let next = edges.into_iter().find(|edge| edge.to == at + 1).and_then(|edge| edge.known);
        if let Some(known) = next {
            claim_some(random, &known, share, &mut draft.points[at + 1]);
        }
    }
}

fn claim_some(random: &mut Random, known: &Known, share: usize, point: &mut DraftPoint) {
    for (v, range) in known.ranges.iter().enumerate() {
        let slack = random.pick(&[0, 0, 1, 5, 1000]);
        if range.lo > 0 && random.percent(share) {
            point.claim(Claim::Least { v, value: (range.lo - slack).max(0) });
        }
        if range.hi < pieces::greatest(v) && random.percent(share) {
            point.claim(Claim::Most { v, value: (range.hi + slack).min(pieces::greatest(v)) });
        }
    }
    for stripe in &known.stripes {
        let slack = random.pick(&[0, 0, 1, 5]);
        if random.percent(share) && Limits::TODAY.has_bound(stripe.b - slack) {
            point.claim(Claim::Stripe(Stripe { b: stripe.b - slack, ..*stripe }));
        }
    }
}

/// Drops what the checker turns back until it turns back nothing: a claim that does not follow, or an access or
/// a division that is not safe.
fn settle(draft: &mut Draft) {
    loop {
        let answer = check(&draft.text());
        match answer.number {
            0 => return,
            EMPTY_START => draft.points[0].claims.retain(|claim| !matches!(claim, Claim::Most { .. })),
            DIVISOR_MAY_BE_ZERO | ACCESS_MAY_LEAVE => {
                let (point, _) = draft.at_line(answer.place);
                draft.points[point].instruction = Instruction::Copy { d: 0, i: 0 };
            }
            CLAIM_DOES_NOT_FOLLOW => {
                let (point, claim) = draft.at_line(answer.second);
                draft.points[point].claims.remove(claim.expect("a claim's line"));
            }
            other => panic!("a routine was made that is turned back by {other}"),
        }
    }
}

//! Runs that divide: values at and beside a half of their divisor, and states that meet the claims of ranges.

use super::families::{trial, Trial};
use super::starts::{bytes, meeting_at, Start};
use crate::draft::Draft;
use crate::families::pieces::greatest;
use crate::families::quotients::{self, dividend, divisor};
use crate::random::Random;
use reference::{
    check, edges, read, Arithmetic, Claim, Instruction, Known, Operand, State, Whole, REGISTERS, RESULTS_SIZE,
    TRAYS_SIZE, VARIABLES,
};

const MOST_DIVISIONS: usize = 4;
/// The first register that no division reads.
const FIRST_FREE: usize = 2 * MOST_DIVISIONS;

/// A division, and claims that the values of its dividend and its divisor meet.
pub(super) struct Division {
    pub(super) instruction: Instruction,
    /// The registers that it writes.
    pub(super) written: Vec<usize>,
    pub(super) claims: Vec<Claim>,
}

pub(super) type Values = [Whole; VARIABLES];

/// Up to four divisions, each of registers of its own, and STOP. A divisor that is 0 misses its claim.
pub fn of_values(random: &mut Random) -> Vec<Trial> {
    let mut values = any_divisors(random);
    let count = 1 + random.below(MOST_DIVISIONS);
    let divisions: Vec<Division> = (0..count).map(|at| division(random, at, &mut values)).collect();
    let text = listing(random, &divisions).text();
    if random.percent(3) {
        values[1] = 0;
    }
    let start = start(random, &values);
    let runs = 1 + random.below(2);
    vec![trial(random, &text, start, runs)]
}

/// A divisor in every register, and the sizes of the tables.
pub(super) fn any_divisors(random: &mut Random) -> Values {
    let mut values = std::array::from_fn(|_| divisor(random));
    (values[TRAYS_SIZE], values[RESULTS_SIZE]) = sizes(random);
    values
}

/// A state at point 0 and tables with these values.
pub(super) fn start(random: &mut Random, values: &Values) -> Start {
    let registers = std::array::from_fn(|v| values[v] as u32);
    let [trays, results] = [TRAYS_SIZE, RESULTS_SIZE].map(|size| bytes(random, values[size] as usize));
    Start { state: State { point: 0, registers }, trays, results }
}

/// Small tables, the first about so many and a half times as long as the second.
fn sizes(random: &mut Random) -> (Whole, Whole) {
    let results = random.between(1, 8);
    let trays = results * random.between(0, 3) + results / 2 + random.between(0, 1);
    (trays, results)
}

/// The division at a point, with its registers filled; the first may divide the sizes of the tables.
fn division(random: &mut Random, at: usize, values: &mut Values) -> Division {
    let sized = at == 0 && random.percent(10);
    let (i, by) = if sized { (TRAYS_SIZE, RESULTS_SIZE) } else { (2 * at, 2 * at + 1) };
    if !sized {
        values[i] = dividend(random, values[by]);
    }
    let number = random.percent(35);
    let o = if number { Operand::Number(values[by]) } else { Operand::Variable(by) };
    let d = random.pick(&[FIRST_FREE + at, FIRST_FREE + at, i, by]).min(REGISTERS - 1);
    let mut claims = around(random, i, values[i], 0);
    if !number {
        claims.extend(around(random, by, values[by], 1));
    }
    Division { instruction: Instruction::Compute { kind: Arithmetic::Divide, d, i, o }, written: vec![d], claims }
}

/// A range that holds the value and nothing below `least`, or only what is needed for that.
pub(super) fn around(random: &mut Random, v: usize, value: Whole, least: Whole) -> Vec<Claim> {
    let slack = random.pick(&[0, 0, 1, 2, value]);
    let lower = Claim::Least { v, value: (value - slack).max(least) };
    let upper = Claim::Most { v, value: (value + slack).min(greatest(v)) };
    match random.below(3) {
        0 => vec![lower, upper],
        _ if least > 0 => vec![lower],
        _ => vec![],
    }
}

/// Every point claims what the divisions from there on need, and often the ends of what the one before it wrote.
pub(super) fn listing(random: &mut Random, divisions: &[Division]) -> Draft {
    let mut draft = Draft::default();
    for (at, division) in divisions.iter().enumerate() {
        let point = draft.push(division.instruction);
        divisions[at..].iter().flat_map(|later| &later.claims).for_each(|&claim| point.claim(claim));
    }
    draft.push(Instruction::Stop);
    for (at, division) in divisions.iter().enumerate() {
        let before = &draft.points[at];
        let along = edges(at, &before.instruction, &before.known()).remove(0).known;
        if let (Some(known), true) = (along, random.percent(60)) {
            division.written.iter().for_each(|&d| claim_ends(&mut draft, at + 1, d, &known));
        }
    }
    draft
}

fn claim_ends(draft: &mut Draft, at: usize, d: usize, known: &Known) {
    let range = known.ranges[d];
    draft.points[at].claim(Claim::Least { v: d, value: range.lo });
    draft.points[at].claim(Claim::Most { v: d, value: range.hi });
}

/// A division that passes, from values in the ranges that its point claims; it stands right before STOP.
pub fn of_ranges(random: &mut Random) -> Vec<Trial> {
    let make = random.pick(&[quotients::of_values, quotients::of_ranges]);
    let text = make(random).swap_remove(0);
    before_stop(random, &text, 1).into_iter().collect()
}

/// A listing that passes, from a state that meets the claims of its last point but one.
pub(super) fn before_stop(random: &mut Random, text: &[u8], runs: usize) -> Option<Trial> {
    if check(text).number != 0 {
        return None;
    }
    let points = read(text).expect("it passes");
    let start = meeting_at(random, &points, points.points.len() - 2)?;
    Some(trial(random, text, start, runs))
}

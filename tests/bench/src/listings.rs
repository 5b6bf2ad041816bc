//! The listings that are timed.

use lines::{listing, LINE};
use reference::{Arithmetic, Claim, Comparison, Instruction, Operand};
use trials::draft::Draft;
use trials::families::{guarded_loop, Loop};
use trials::random::Random;

const MOST_LINES: usize = 1638;

/// As many lines as may be, well filled, the last one being `last`. With COPY it is turned back by that line (10), so
/// that nothing but reading happens; with STOP it is turned back by nothing that reading tests.
pub fn longest(last: &str) -> Vec<u8> {
    let point = listing(
        "LEAS 1 _ _ _ _ 65536; STRP 17 255 1 2 _ -4398046511104; STRP 16 4 1 _ _ 0; ADDW 12 13 _ _ 1 4294967295",
    );
    let mut text = point.repeat(MOST_LINES / 4);
    while text.len() < (MOST_LINES - 1) * LINE {
        text.extend(listing("COPY 0 0"));
    }
    text.extend(listing(last));
    text
}

/// One guarded loop that stores: C6.
pub fn small() -> Vec<u8> {
    let whole = "STRP 17 4 1 _ _ 0;";
    listing(&format!(
        "{whole} SETC 0 _ _ _ _ 0; {whole} BLTU _ 0 _ 3 0 1; STOP; {whole} STRP 17 4 0 _ _ 4; STOR 2 4 _ 4 0 0;
         {whole} ADDW 0 0 _ _ 1 1; {whole} JUMP _ _ _ 1"
    ))
}

/// One loop with a bound on its steps: the sum of all numbers from a register's value down to 1.
pub fn small_bounded() -> Vec<u8> {
    let least = "LEAS 1 _ _ _ _ 1;";
    listing(&format!(
        "TURN 1; MOST 1 _ _ _ _ 1000; SETC 2 _ _ _ _ 0; BEQU _ 1 _ 5 1 0; {least} ADDW 2 2 _ _ 0 1;
         {least} SUBW 1 1 _ _ 1 1; JUMP _ _ _ 1; STOP"
    ))
}

const OVER_RESULTS: Loop = Loop { index: 0, count: 1, size: 17, scale: 4, room: 2 };
/// The same over records that are longer than a byte can count.
const OVER_LONG_RECORDS: Loop = Loop { scale: 300, ..OVER_RESULTS };
const SCRATCH: [usize; 4] = [2, 3, 4, 5];
/// The register that bounds the steps.
const TURN: usize = 6;

/// A routine of so many points: guarded loops over the results, one after the other.
pub fn typical(points: usize) -> Vec<u8> {
    loops(points, plain_loop).text()
}

/// The same over records of 300 bytes.
pub fn long_records(points: usize) -> Vec<u8> {
    loops(points, |random, draft| guarded_loop(random, draft, &OVER_LONG_RECORDS, &SCRATCH, 4)).text()
}

/// The first with a bound on its steps, each way back being covered.
pub fn typical_bounded(points: usize) -> Vec<u8> {
    let mut draft = loops(points, counted_loop);
    draft.turn = Some(TURN);
    draft.points[0].claim(Claim::Most { v: TURN, value: 1000 });
    draft.text()
}

/// As many loops as fit into so many points, then steps that do little.
fn loops(points: usize, add_loop: fn(&mut Random, &mut Draft)) -> Draft {
    let mut random = Random::new(points as u64);
    let mut draft = Draft::default();
    loop {
        let mut longer = draft.clone();
        add_loop(&mut random, &mut longer);
        if longer.points.len() >= points {
            break;
        }
        draft = longer;
    }
    let kept = draft.points[0].claims.clone();
    while draft.points.len() + 1 < points {
        draft.push(Instruction::Copy { d: 2, i: 3 }).claims = kept.clone();
    }
    draft.push(Instruction::Stop);
    draft
}

/// A routine of so many points, half of which are empty: behind each loop stands a stretch as long as it.
pub fn half_empty(points: usize) -> Vec<u8> {
    loops(points, loop_and_stretch).text()
}

/// A plain loop that is left to the point behind a stretch of empty points, whose stores would leave the results.
fn loop_and_stretch(random: &mut Random, draft: &mut Draft) {
    let first = draft.points.len();
    plain_loop(random, draft);
    let live = draft.points.len() - first;
    draft.points[first + 2].instruction = Instruction::Jump { target: draft.points.len() + live };
    for _ in 0..live {
        let store = Instruction::Store { stored: 2, width: 4, scale: 255, i: 3, offset: 0 };
        let point = draft.push(store);
        point.claim(Claim::Least { v: 3, value: 1 });
        point.claim(Claim::Most { v: 3, value: 0 });
    }
}

fn plain_loop(random: &mut Random, draft: &mut Draft) {
    guarded_loop(random, draft, &OVER_RESULTS, &SCRATCH, 4);
}

/// A plain loop that is also left where the TURN register is 0, and makes it smaller right before it goes back.
fn counted_loop(random: &mut Random, draft: &mut Draft) {
    let out = draft.points.len() + 2;
    plain_loop(random, draft);
    let back = draft.points.pop().expect("a loop ends in its way back");
    let end = draft.points.len() + 3;
    draft.points[out].instruction = Instruction::Jump { target: end };
    let spent = Instruction::Branch { kind: Comparison::Equal, i: TURN, target: end, o: Operand::Number(0) };
    draft.push(spent).claims = back.claims.clone();
    let smaller = Instruction::Compute { kind: Arithmetic::Subtract, d: TURN, i: TURN, o: Operand::Number(1) };
    let point = draft.push(smaller);
    point.claims = back.claims.clone();
    point.claim(Claim::Least { v: TURN, value: 1 });
    draft.points.push(back);
}

/// As many points as fit, in threes: a remainder by a number, a store at the place that it gives, and a remainder by a
/// register.
pub fn remainders() -> Vec<u8> {
    let (least, kept) = ("LEAS 3 _ _ _ _ 1; LEAS 17 _ _ _ _ 12;", "STRP 17 4 1 _ _ 0;");
    let three = listing(&format!(
        "{least} {kept} DIVM 4 2 5 _ 1 12; {least} MOST 5 _ _ _ _ 11; {kept} STOR 4 1 _ 1 5 0;
         {least} {kept} DIVM 2 4 6 _ 0 3"
    ));
    let mut text = three.repeat((MOST_LINES * LINE - LINE) / three.len());
    text.extend(listing("STOP"));
    text
}

/// Where the only link that helps stands among those that a search goes through.
#[derive(Clone, Copy, PartialEq, Eq)]
pub enum KeyLink {
    /// Added by the branch, in front of every written stripe.
    First,
    /// Written after every other link.
    Last,
}

/// x − a × (o + o) ≥ 5, from which every goal over i and i follows by two links o − i ≥ 0.
const STANDING: &str = "STRP 4 2 2 2 _ 5;";
const KEY: &str = "STRP 2 1 1 _ _ 0;";
const LEAST_BOUND: i64 = -4_294_967_295;

/// As many points as fit, in threes: links and a branch, a STOP, and goals that follow along the branch only by
/// the key link twice, which costs most where a search comes to it last. The other links lie between all pairs of
/// three variables, or are all equal; none of them helps, and they follow by ranges.
pub fn worst(key: KeyLink, equal: bool) -> Vec<u8> {
    let others: &[(u8, u8)] = match key {
        KeyLink::First => &[(1, 1), (3, 1), (2, 2), (3, 2), (1, 3), (2, 3), (3, 3)],
        KeyLink::Last => &[(1, 1), (2, 2), (1, 2), (3, 2), (2, 3), (3, 3)],
    };
    let link = |&(u, v): &(u8, u8)| {
        let (u, v) = if equal { (1, 1) } else { (u, v) };
        format!("STRP {u} 1 {v} _ _ {LEAST_BOUND};")
    };
    let links: String = others.iter().map(link).collect();
    let goals: String = (0..others.len()).map(|less| format!("STRP 4 2 1 1 _ {};", 5 - less as i64)).collect();
    let (carried, branched) = match key {
        KeyLink::First => ("", 2),
        KeyLink::Last => (KEY, 3),
    };
    let mut text = Vec::new();
    let mut target = 2;
    loop {
        let branch = format!("BEQU _ 1 _ {target} 0 {branched};");
        let three = listing(&format!(
            "{links} {carried} {STANDING} {branch} STOP; {carried} {STANDING} {goals} SETC 9 _ _ _ _ 0"
        ));
        if text.len() + three.len() + LINE > MOST_LINES * LINE {
            text.extend(listing("STOP"));
            return text;
        }
        text.extend(three);
        target += 3;
    }
}

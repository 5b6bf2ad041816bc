//! TURN lines as text: on any line, at the limits of their fields, before claims in any order, and routines under a TURN
//! line that are damaged, nudged, or as long as a listing may be.

use super::turns::{count, counted, step};
use super::{damage, limits, nudges, probes};
use crate::draft::{turn_line, Draft};
use crate::random::Random;
use lines::{listing, LINE};
use reference::{Claim, Comparison, Instruction, Operand, REGISTERS};

/// One TURN line or two among lines that are right, mostly not the first; sometimes with nothing but claims behind it.
pub fn any_line(random: &mut Random) -> Vec<Vec<u8>> {
    let mut text = match random.below(4) {
        0 => counted(random).draft.text(),
        1 => limits::claim_order(random).swap_remove(0),
        2 => listing("LEAS 0 _ _ _ _ 0; MOST 1 _ _ _ _ 9; STRP 1 1 0 _ _ -9"),
        _ => probes::jumble(random).swap_remove(0),
    };
    if text.len() == 3 * LINE {
        text.truncate(random.below(4) * LINE);
    }
    for _ in 0..random.pick(&[1, 1, 1, 2]) {
        let lines = text.len() / LINE;
        let at = if random.percent(40) { 0 } else { random.below(lines + 1) } * LINE;
        let register = random.below(REGISTERS + 1);
        text.splice(at..at, turn_line(register));
    }
    vec![text]
}

/// A TURN line with one or two fields at or beside a limit, the first line or the second.
pub fn fields(random: &mut Random) -> Vec<Vec<u8>> {
    let model = random.pick(&["TURN 0", "TURN 7", "TURN 15"]);
    let mut text = limits::fields_of(random, model).swap_remove(0);
    if random.percent(30) {
        text.splice(..0, listing(random.pick(&["STOP", "LEAS 0 _ _ _ _ 0", "TURN 0"])));
    }
    vec![text]
}

/// For each damage that reading finds, a routine under a TURN line with it.
pub fn damaged(random: &mut Random) -> Vec<Vec<u8>> {
    let text = counted(random).draft.text();
    damage::each_damage(random, &text)
}

/// A routine under a TURN line with one number changed by a little, or two.
pub fn nudged(random: &mut Random) -> Vec<Vec<u8>> {
    let text = counted(random).draft.text();
    let once = nudges::nudge(random, &text);
    vec![nudges::nudge(random, &once), once]
}

/// A DIVM with one register for both results, on any line of a routine under a TURN line, before it too.
pub fn one_register_twice(random: &mut Random) -> Vec<Vec<u8>> {
    let mut text = counted(random).draft.text();
    let at = random.below(text.len() / LINE) * LINE;
    text.splice(at..at, damage::twice(random));
    vec![text]
}

/// A loop over about 512 points.
pub fn many_points(random: &mut Random) -> Vec<Vec<u8>> {
    let points = random.pick(&[511, 512, 512, 513, 513, 513, 514, 600]);
    let most = random.between(0, 2);
    let mut count = count(random, most, 1);
    count.kept.clear();
    count.reads = false;
    let mut draft = Draft { turn: Some(count.turn), ..Draft::default() };
    while draft.points.len() + 4 < points {
        draft.push(step(random, &count));
    }
    let target = random.pick(&[points - 1, points - 1, points - 1, 511]).min(511);
    let o = Operand::Number(0);
    draft.push(Instruction::Branch { kind: Comparison::Equal, i: count.turn, target, o });
    draft.push(count.subtract(1)).claim(count.at_least());
    let back = random.pick(&[1, 1, 1, points - 2, points - 4]).min(511);
    draft.push(Instruction::Jump { target: back });
    draft.push(Instruction::Stop);
    draft.points[0].claim(Claim::Most { v: count.turn, value: most });
    vec![draft.text()]
}

/// 1,638 lines or about so many, the first of them TURN.
pub fn many_bytes(random: &mut Random) -> Vec<Vec<u8>> {
    let mut text = limits::many_bytes(random).swap_remove(0);
    let kept = random.pick(&[0, LINE]);
    text.splice(..kept, turn_line(3));
    vec![text]
}

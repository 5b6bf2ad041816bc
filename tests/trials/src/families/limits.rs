//! The limits themselves: every field of every word at and beside its ends, the counts of stripes, points and bytes.

use super::pieces;
use crate::draft::{claim_line, instruction_line, Draft};
use crate::random::Random;
use crate::shrink::write;
use lines::{listing, FIELDS, LINE};
use reference::{Claim, Instruction, Stripe, VARIABLES};

/// A line of each word but DIVM and TURN that is right in every field.
const MODELS: [&str; 15] = [
    "STOP",
    "SETC 1 _ _ _ _ 5",
    "COPY 1 2",
    "ADDW 1 2 _ _ 0 3",
    "SUBW 1 2 _ _ 1 3",
    "MULW 1 2 _ _ 0 3",
    "DIVF 1 2 _ _ 1 3",
    "LOAD 1 2 0 4 5 6",
    "STOR 1 2 _ 4 5 6",
    "JUMP _ _ _ 1",
    "BLTU _ 1 _ 1 0 3",
    "BEQU _ 1 _ 1 1 3",
    "LEAS 1 _ _ _ _ 0",
    "MOST 1 _ _ _ _ 4294967295",
    "STRP 1 2 3 4 _ -5",
];

const NARROW: [&str; 26] = [
    "", "0", "1", "2", "3", "4", "5", "8", "14", "15", "16", "17", "18", "254", "255", "256", "510", "511", "512",
    "513", "4094", "4095", "4096", "4097", "9999", "-1",
];

const WIDE: [&str; 28] = [
    "",
    "0",
    "1",
    "17",
    "18",
    "65534",
    "65535",
    "65536",
    "65537",
    "4294967294",
    "4294967295",
    "4294967296",
    "4398046511103",
    "4398046511104",
    "4398046511105",
    "-1",
    "-4398046511104",
    "-4398046511105",
    "70368744177663",
    "70368744177664",
    "70368744177665",
    "-70368744177663",
    "-70368744177664",
    "-70368744177665",
    "99999999999999",
    "999999999999999",
    "-99999999999999",
    "18446744073709",
];

/// A model line with one or two fields at or beside a limit, between points that are right.
pub fn fields(random: &mut Random) -> Vec<Vec<u8>> {
    let model = random.pick(&MODELS);
    fields_of(random, model)
}

/// The same of a division with remainder.
pub fn fields_of_div_mod(random: &mut Random) -> Vec<Vec<u8>> {
    let model = random.pick(&["DIVM 1 2 3 _ 0 4", "DIVM 1 2 3 _ 1 4"]);
    fields_of(random, model)
}

/// The same of a line of one's own.
pub fn fields_of(random: &mut Random, model: &str) -> Vec<Vec<u8>> {
    let mut line = listing(model);
    if matches!(&line[..4], b"LEAS" | b"MOST") && random.percent(50) {
        write(&mut line, 0, random.pick(&["15", "16", "17"]));
    }
    for _ in 0..1 + random.below(2) {
        let field = random.below(FIELDS.len());
        let text = if field == 5 { random.pick(&WIDE) } else { random.pick(&NARROW) };
        write(&mut line, field, text);
    }
    vec![[line, listing("STOP; STOP")].concat()]
}

/// Claims before one instruction in an order that is right or nearly so, with up to ten stripes.
pub fn claim_order(random: &mut Random) -> Vec<Vec<u8>> {
    let mut text = Vec::new();
    let mut v = random.below(3);
    for word in ["LEAS", "MOST"] {
        for _ in 0..random.below(4) {
            text.extend(listing(&format!("{word} {v} _ _ _ _ {}", if word == "LEAS" { 0 } else { 65_536 })));
            v = (v + random.pick(&[1, 1, 1, 1, 2, 0])).min(17);
        }
        v = random.below(3);
    }
    let stripe = Claim::Stripe(Stripe { x: 1, a: 1, y: 1, z: None, b: 0 });
    for _ in 0..random.pick(&[0, 1, 7, 8, 8, 9, 9, 10]) {
        text.extend(claim_line(&stripe));
    }
    if random.percent(10) {
        text.extend(listing("LEAS 17 _ _ _ _ 0"));
    }
    text.extend(listing("JUMP _ _ _ 1; LEAS 0 _ _ _ _ 0; STOP"));
    vec![text]
}

/// About 512 points, some with claims, some behind the last one allowed.
pub fn many_points(random: &mut Random) -> Vec<Vec<u8>> {
    let count = random.pick(&[511, 512, 512, 513, 513, 513, 514, 600]);
    let mut draft = Draft::default();
    for at in 0..count {
        let anywhere = random.below(512);
        let target = random.pick(&[at.min(511), 0, 511, anywhere]);
        let instruction = match random.below(4) {
            0 => Instruction::Jump { target },
            1 => pieces::branch(random, &[1, 2], target),
            2 => Instruction::Copy { d: 1, i: 2 },
            _ => Instruction::Stop,
        };
        let point = draft.push(if at + 1 == count { Instruction::Stop } else { instruction });
        if random.percent(5) {
            point.claim(Claim::Least { v: random.below(VARIABLES), value: 0 });
        }
    }
    let mut text = draft.text();
    match random.below(10) {
        0 => text.extend(claim_line(&Claim::Least { v: 0, value: 0 })),
        1 => text.extend(instruction_line(&Instruction::Copy { d: 0, i: 0 })),
        2 => {
            let at = random.below(text.len());
            text[at] = b'?';
        }
        _ => {}
    }
    vec![text]
}

/// 1,637 to 1,639 lines, all points with up to eight stripes.
pub fn many_bytes(random: &mut Random) -> Vec<Vec<u8>> {
    let lines = random.pick(&[1637, 1638, 1638, 1638, 1639]);
    let stripes = random.pick(&[3, 5, 8]);
    let stripe = Claim::Stripe(Stripe { x: 17, a: 4, y: 1, z: None, b: random.pick(&[-9, 0, 4]) });
    let breaks = random.percent(40);
    let mut text = Vec::new();
    while text.len() / LINE + stripes + 2 < lines {
        (0..stripes).for_each(|_| text.extend(claim_line(&stripe)));
        let d = if breaks && random.percent(1) { 1 } else { 2 };
        text.extend(instruction_line(&Instruction::Copy { d, i: 3 }));
    }
    while text.len() / LINE < lines {
        text.extend(instruction_line(&Instruction::Stop));
    }
    vec![text]
}

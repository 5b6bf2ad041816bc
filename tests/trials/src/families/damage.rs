//! Damaged text: for each of the refusals that reading makes, a listing spoilt at a random place.

// every damage has the same signature
#![allow(clippy::ptr_arg)]

use super::{pieces, probes, remainders, routines};
use crate::draft::{claim_line, instruction_line};
use crate::random::Random;
use crate::shrink::{is_claim, write};
use lines::{listing, FIELDS, LINE};
use reference::{Claim, Instruction, VARIABLES};

type Damage = fn(&mut Random, &mut Vec<u8>);

/// In the order of the refusals 1 to 7 and 9 to 11; 8 needs a longer listing than these.
const DAMAGES: [Damage; 10] =
    [length, bytes, word, shape, limits, order, ends_in_claim, no_such_target, runs_off, empty_start];

const TARGET_FIELD: usize = 3;

/// One listing for each kind of damage.
pub fn damaged(random: &mut Random) -> Vec<Vec<u8>> {
    let base = base(random);
    each_damage(random, &base)
}

/// The listing with each kind of damage.
pub fn each_damage(random: &mut Random, listing: &[u8]) -> Vec<Vec<u8>> {
    let spoil = |damage: &Damage| {
        let mut text = listing.to_vec();
        damage(random, &mut text);
        text
    };
    DAMAGES.iter().map(spoil).collect()
}

/// Pairs of damages to one listing, so that the order of the tests shows.
pub fn damaged_twice(random: &mut Random) -> Vec<Vec<u8>> {
    let base = base(random);
    let mut spoilt = Vec::new();
    for _ in 0..5 {
        let mut text = base.clone();
        random.pick(&DAMAGES)(random, &mut text);
        if text.len() >= LINE {
            random.pick(&DAMAGES)(random, &mut text);
        }
        spoilt.push(text);
    }
    spoilt
}

/// One register for both results of a DIVM: alone, beside another damage to its line, or beside one anywhere.
pub fn one_register_twice(random: &mut Random) -> Vec<Vec<u8>> {
    let make = random.pick(&[remainders::of_ranges, remainders::among_points]);
    let mut text = make(random).remove(0);
    let at = some_line(random, &text);
    let kept = if random.percent(50) { at } else { at + LINE };
    text.splice(at..kept, twice(random));
    let line = &mut text[at..at + LINE];
    match random.below(8) {
        0 | 1 => {}
        2 => spoil_shape(random, line),
        3 => {
            let field = random.pick(&[1, 4, 5]);
            spoil_limit(random, line, field);
        }
        4 => {
            let none = random.pick(&["", "16", "17", "9999", "-1", "01"]);
            [0, 2].iter().for_each(|&field| write(line, field, none));
        }
        _ => random.pick(&DAMAGES)(random, &mut text),
    }
    vec![text]
}

/// A DIVM with one register for both results.
pub fn twice(random: &mut Random) -> [u8; LINE] {
    let pool = pieces::pool(random);
    let (q, i, o) = (pool[0], random.pick(&pool), pieces::operand(random, &pool));
    instruction_line(&Instruction::DivMod { q, i, r: q, o })
}

fn base(random: &mut Random) -> Vec<u8> {
    match random.below(20) {
        0 => routines::routine(random).text(),
        1..=9 => probes::jumble(random).remove(0),
        _ => probes::one_edge(random).remove(0),
    }
}

/// The start of a random line.
fn some_line(random: &mut Random, text: &[u8]) -> usize {
    random.below(text.len() / LINE) * LINE
}

fn length(random: &mut Random, text: &mut Vec<u8>) {
    match random.below(4) {
        0 => text.clear(),
        1 => text.push(b'\n'),
        2 => drop(text.pop()),
        _ => text.truncate(random.below(text.len())),
    }
}

fn bytes(random: &mut Random, text: &mut Vec<u8>) {
    let at = some_line(random, text);
    if random.percent(30) {
        text[at + LINE - 1] = random.pick(b" 0\r\t\x0b\x8a");
    } else {
        text[at + random.below(LINE - 1)] = random.pick(&[0, 9, 10, 13, 31, 127, 128, 160, 255]);
    }
}

fn word(random: &mut Random, text: &mut Vec<u8>) {
    let at = some_line(random, text);
    match random.below(4) {
        0 => text[at..at + 4].make_ascii_lowercase(),
        1 => text[at..at + 4].copy_from_slice(random.pick(&[b"    ", b"STRO", b"LEAD", b"BGTU", b"ADDF", b" STO"])),
        2 => text[at..at + 4].rotate_left(1),
        _ => text[at + random.below(4)] = b'A' + random.below(26) as u8,
    }
}

fn shape(random: &mut Random, text: &mut Vec<u8>) {
    let at = some_line(random, text);
    spoil_shape(random, &mut text[at..at + LINE]);
}

fn spoil_shape(random: &mut Random, line: &mut [u8]) {
    let field = random.below(FIELDS.len());
    let (start, end) = FIELDS[field];
    match random.below(8) {
        0 => line[start..end].fill(b' '),
        1 => line[start..end].rotate_left(1),
        2 => line[start..end].fill(b'0'),
        3 => line[start + random.below(end - start)] = random.pick(b" -+0a./:"),
        _ => {
            let misshapen = ["01", "00", "+1", "-0", "-1", "--1", "-01", "- 1", "1 1", "1 ", "-", "1.0", "0x1", "1e1"];
            write(line, field, random.pick(&misshapen));
        }
    }
}

fn limits(random: &mut Random, text: &mut Vec<u8>) {
    for _ in 0..20 {
        let at = some_line(random, text);
        let field = random.below(FIELDS.len());
        let line = &mut text[at..at + LINE];
        if line[FIELDS[field].1 - 1] == b' ' {
            continue;
        }
        return spoil_limit(random, line, field);
    }
}

fn spoil_limit(random: &mut Random, line: &mut [u8], field: usize) {
    let small = ["0", "2", "3", "8", "16", "17", "18", "256", "512", "999", "4096", "9999"];
    let large =
        ["18", "65536", "65537", "4294967296", "4398046511105", "70368744177665", "-70368744177665", "999999999999999"];
    let number = if field == 5 { random.pick(&large) } else { random.pick(&small) };
    write(line, field, number);
}

fn order(random: &mut Random, text: &mut Vec<u8>) {
    let v = random.below(16);
    let stripe = format!("STRP {v} 1 0 _ _ 0;");
    let (least, most) = (format!("LEAS {v} _ _ _ _ 0;"), format!("MOST {v} _ _ _ _ 9;"));
    let claims = match random.below(6) {
        0 => format!("{least} {least}"),
        1 => format!("{most} {most}"),
        2 => format!("LEAS {} _ _ _ _ 0; {least}", v + 1),
        3 => format!("{most} {least}"),
        4 => format!("{stripe} {}", random.pick(&[&least, &most])),
        _ => stripe.repeat(9),
    };
    let at = some_line(random, text);
    text.splice(at..at, listing(&claims));
}

fn ends_in_claim(random: &mut Random, text: &mut Vec<u8>) {
    let v = random.below(VARIABLES);
    let claim = pieces::claim(random, &[v, 17]);
    text.extend(claim_line(&claim));
}

fn no_such_target(random: &mut Random, text: &mut Vec<u8>) {
    let instruction = Instruction::Jump { target: 0 };
    if !text.chunks(LINE).any(jumps) {
        let end = text.len();
        text.splice(end - end.min(LINE).., instruction_line(&instruction));
    }
    let points = text.chunks(LINE).filter(|line| !is_claim(line)).count();
    let target = random.pick(&[points, points, points + 1, 511]).min(511);
    let from = random.below(text.len() / LINE);
    let count = text.len() / LINE;
    let at = (0..count).map(|step| (from + step) % count).find(|&at| jumps(&text[at * LINE..]));
    if let Some(at) = at {
        write(&mut text[at * LINE..(at + 1) * LINE], TARGET_FIELD, &target.to_string());
    }
}

fn jumps(line: &[u8]) -> bool {
    line.len() >= LINE && matches!(&line[..4], b"JUMP" | b"BLTU" | b"BEQU")
}

fn runs_off(random: &mut Random, text: &mut Vec<u8>) {
    let pool = pieces::pool(random);
    let last = match random.below(4) {
        0 => pieces::arithmetic(random, &pool),
        1 => pieces::load(random, &pool),
        2 => pieces::store(random, &pool),
        _ => pieces::branch(random, &pool, 0),
    };
    text.extend(instruction_line(&last));
}

fn empty_start(random: &mut Random, text: &mut Vec<u8>) {
    let claims = text.chunks(LINE).take_while(|line| is_claim(line)).count();
    let v = random.below(VARIABLES);
    let hi = pieces::value_of(random, v) - 1;
    let (hi, lo) = (hi.max(0), (hi.max(0) + random.pick(&[1, 1, 2])).min(pieces::greatest(v)));
    let mut start = claim_line(&Claim::Least { v, value: lo }).to_vec();
    start.extend(claim_line(&Claim::Most { v, value: hi }));
    text.splice(..claims * LINE, start);
}

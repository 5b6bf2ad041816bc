//! Where a line is set: the length of the listing, what stood in it before, and the number of the line.

use super::call::SetCall;
use super::models::some_model;
use crate::draft::Draft;
use crate::families::pieces;
use crate::random::Random;
use lines::LINE;

const MOST_LINES: u64 = 1638;

/// A line number and the length of a short listing, which mostly has the line.
pub fn place(random: &mut Random) -> (u64, usize) {
    let lines = random.below(5);
    let length = lines * LINE + random.pick(&[0, 0, 0, 1, 20, LINE - 1]);
    if lines == 0 || random.percent(10) {
        return (strange_line(random, length), length);
    }
    (1 + random.below(lines) as u64, length)
}

/// A line that the listing mostly does not have.
pub fn strange_line(random: &mut Random, length: usize) -> u64 {
    let next = (length / LINE) as u64 + 1;
    let anywhere = random.draw();
    let wrapping = random.pick(&wrapping_lines(length));
    random.pick(&[0, 0, next, next, next, next + 1, MOST_LINES, MOST_LINES + 1, u64::MAX, anywhere, wrapping])
}

/// What may stand in a listing before a line is set.
#[derive(Clone, Copy)]
pub enum Before {
    Random,
    Spaces,
    Listing,
}

pub const BEFORES: [Before; 3] = [Before::Random, Before::Spaces, Before::Listing];

pub fn before(random: &mut Random, length: usize) -> Vec<u8> {
    random.pick(&BEFORES).bytes(random, length)
}

impl Before {
    pub fn bytes(self, random: &mut Random, length: usize) -> Vec<u8> {
        match self {
            Before::Random => (0..length).map(|_| random.draw() as u8).collect(),
            Before::Spaces => vec![b' '; length],
            Before::Listing => some_lines(random).into_iter().cycle().take(length).collect(),
        }
    }
}

/// A few points with claims.
fn some_lines(random: &mut Random) -> Vec<u8> {
    let pool = pieces::pool(random);
    let mut draft = Draft::default();
    for target in 0..3 {
        let instruction = pieces::instruction(random, &pool, target);
        let claim = pieces::claim(random, &pool);
        draft.push(instruction).claim(claim);
    }
    draft.text()
}

/// Around one, two and a few lines, and around the longest listing.
const LENGTHS: [usize; 26] = [
    0, 1, 39, 40, 41, 79, 80, 81, 100, 119, 120, 121, 400, 439, 4_000, 65_479, 65_480, 65_481, 65_519, 65_520, 65_521,
    65_559, 65_560, 65_561, 65_600, 131_080,
];

pub const BATCHES: u64 = (LENGTHS.len() * BEFORES.len()) as u64;

/// One length and one kind of bytes before, every line number.
pub fn every_line(random: &mut Random, batch: u64) -> Vec<SetCall> {
    let length = LENGTHS[batch as usize / BEFORES.len()];
    let listing = BEFORES[batch as usize % BEFORES.len()].bytes(random, length);
    let mut calls = Vec::new();
    for line in [near_lines(length), wrapping_lines(length)].concat() {
        let model = some_model(random);
        calls.push(model.call_at(random, line, listing.clone()));
    }
    calls
}

/// Lines at both ends of the listing, of the longest listing and of the numbers.
fn near_lines(length: usize) -> Vec<u64> {
    let last = (length / LINE) as u64;
    let near = |line: u64| [line.saturating_sub(1), line, line + 1, line + 2];
    let mut lines = [near(0), near(last), near(last / 2), near(MOST_LINES)].concat();
    lines.extend([u64::MAX, u64::MAX - 1, u64::MAX / 2]);
    lines.sort_unstable();
    lines.dedup();
    lines
}

/// Lines that no listing has, but that come out as one where high bits are lost: of the line, or of its product with 40.
fn wrapping_lines(length: usize) -> Vec<u64> {
    let last = (length / LINE) as u64;
    let cut = [16, 32, 61, 62, 63].map(|bits| 1u64 << bits);
    let mut lines: Vec<u64> = cut.iter().flat_map(|cut| [*cut, cut + 1, cut + last, cut + last + 1]).collect();
    // the least lines whose product is above k times 2^64
    let past = |k: u128| ((k << 64) / LINE as u128) as u64;
    lines.extend((1..LINE as u128).flat_map(|k| [past(k), past(k) + 1, past(k) + 2]));
    lines
}

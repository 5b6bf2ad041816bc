//! Calls that set a stripe or an access with its scale and its bound at and beside their limits.

use super::call::{SetCall, NEGATIVE, NUMBER};
use super::models::{Model, MODELS};
use super::places::strange_line;
use crate::random::Random;
use reference::Limits;

/// Ends of the limits, and numbers that are a scale where high bits are lost.
const SCALES: [u64; 18] = [
    0,
    1,
    254,
    255,
    256,
    257,
    1_000,
    4_094,
    4_095,
    4_095,
    4_096,
    4_097,
    4_096 + 255,
    9_999,
    10_000,
    65_536 + 255,
    (1 << 32) + 4_095,
    u64::MAX,
];

const BOUND: usize = 5;

/// The field of the scale.
fn scale_field(word: &[u8]) -> Option<usize> {
    match word {
        b"STRP" => Some(1),
        b"LOAD" | b"STOR" => Some(3),
        _ => None,
    }
}

/// Right in every other field; seldom the listing has no such line.
pub fn at_limits(random: &mut Random, _batch: u64) -> Vec<SetCall> {
    let models: Vec<Model> = MODELS.into_iter().filter(|model| scale_field(model.word).is_some()).collect();
    let mut call = random.pick(&models).call(random);
    let field = scale_field(&call.word).expect("it has a scale");
    if random.percent(60) {
        call.numbers[field] = random.pick(&SCALES);
    }
    if field == 1 {
        let end = random.pick(&[Limits::TODAY, Limits::TODAY, Limits::EARLIER]).bound as u64;
        let wide = random.pick(&[99_999_999_999_999, 100_000_000_000_000, 999_999_999_999_999, end + (1 << 47)]);
        call.kinds[BOUND] = random.pick(&[NUMBER, NEGATIVE]);
        call.numbers[BOUND] = random.pick(&[end, end, end, end - 1, end + 1, wide]);
    }
    if random.percent(10) {
        call.line = strange_line(random, call.listing.len());
    }
    vec![call]
}

//! Calls whose word is none of the seventeen, most of them nearly one.

use super::call::SetCall;
use super::models::{some_model, MODELS};
use crate::random::Random;
use lines::LINE;

const BYTES: usize = 4;

pub const PLACES: u64 = (MODELS.len() * BYTES) as u64;

/// One byte of the word of one model: every value, its own too.
pub fn every_byte(random: &mut Random, batch: u64) -> Vec<SetCall> {
    let (model, at) = (MODELS[batch as usize / BYTES], batch as usize % BYTES);
    let with = |byte| {
        let mut call = model.call(random);
        call.word[at] = byte;
        call
    };
    (0..=u8::MAX).map(with).collect()
}

pub fn other_words(random: &mut Random, _batch: u64) -> Vec<SetCall> {
    let mut call = some_model(random).call(random);
    change(random, &mut call.word);
    vec![call]
}

/// Another length, another order or case of letters, or other bytes.
pub fn change(random: &mut Random, word: &mut Vec<u8>) {
    let tail = random.pick(&[b' ', b'\n', 0, b'P', 255]);
    match random.below(10) {
        0 => word.truncate(random.below(BYTES)),
        1 => drop(word.remove(0)),
        2 => word.push(tail),
        3 => word.insert(0, tail),
        4 => word.resize(random.pick(&[BYTES + 1, 2 * BYTES, LINE, 1 << 12]), tail),
        5 => word.make_ascii_lowercase(),
        6 => word[random.below(BYTES)..].make_ascii_lowercase(),
        7 => word.rotate_left(1 + random.below(BYTES - 1)),
        8 => {
            *word =
                random.pick(&[b"    ", b"STRO", b"LEAD", b"BGTU", b"ADDF", b" STO", b"\0\0\0\0", b"\n\n\n\n"]).to_vec()
        }
        _ => *word = (0..BYTES).map(|_| random.draw() as u8).collect(),
    }
}

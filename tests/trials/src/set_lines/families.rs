//! The families of calls that set a line. Each batch comes from a seed of its own; some go through a table by its number.

use super::call::SetCall;
use super::{fields, long_records, places, registers, several, turns, words};
use crate::random::Random;

pub struct SetFamily {
    pub name: &'static str,
    seed: u64,
    pub batches: u64,
    make: fn(&mut Random, u64) -> Vec<SetCall>,
}

impl SetFamily {
    pub fn batch(&self, batch: u64) -> Vec<SetCall> {
        let seed = Random::new(self.seed.wrapping_mul(1_000_003).wrapping_add(batch)).draw();
        (self.make)(&mut Random::new(seed), batch)
    }

    /// The same family with a share of its batches, for runs that cannot wait.
    pub fn thinned(mut self, divisor: u64) -> SetFamily {
        self.batches = self.batches.div_ceil(divisor);
        self
    }
}

/// Every family of the comparison of setters.
pub fn set_families() -> Vec<SetFamily> {
    let family = |name, seed, batches, make| SetFamily { name, seed, batches, make };
    vec![
        family("lines that are right in every field", 21, 24_000, fields::right),
        family("every number in every field of every word", 22, 2 * fields::PLACES, fields::every_number),
        family("two or three fields changed", 23, 24_000, fields::some_fields),
        family("fields of another word", 24, 8_000, fields::other_word),
        family("every byte in every place of a word", 25, words::PLACES, words::every_byte),
        family("words of other lengths, cases and bytes", 26, 8_000, words::other_words),
        family("every length of a listing with every line", 27, places::BATCHES, places::every_line),
        family("several faults at once", 28, 30_000, several::several),
        family("one register for quotient and remainder", 29, 500, registers::one_twice),
        family("scales and bounds at and beside their limits", 31, 5_000, long_records::at_limits),
        family("TURN lines, right in every field and not", 30, 4_000, turns::turn),
    ]
}

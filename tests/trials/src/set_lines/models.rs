//! Lines that are right in every field, and the numbers that are tried in their places.

use super::call::SetCall;
use super::places::{before, place};
use crate::random::Random;
use reference::{Limits, Whole, MAX, SIZE_LIMIT};

/// A word, and for each field numbers that fit, the ends of its limits among them; none where the field is blank.
#[derive(Clone, Copy)]
pub struct Model {
    pub word: &'static [u8; 4],
    fields: [&'static [Whole]; 6],
}

const NONE: &[Whole] = &[];
const REGISTER: &[Whole] = &[0, 1, 9, 10, 15];
/// Two parts of the registers, for fields that must not name the same one.
const EVEN: &[Whole] = &[0, 2, 10, 14];
const ODD: &[Whole] = &[1, 9, 11, 15];
const VARIABLE: &[Whole] = &[0, 1, 9, 10, 15, 16, 17];
const SIZE: &[Whole] = &[16, 17];
const WIDTH: &[Whole] = &[1, 2, 4];
const TABLE: &[Whole] = &[0, 1];
const SCALE: &[Whole] = &[1, 2, 9, 10, 99, 100, 255, 256, 999, 1_000, 4_094, 4_095];
const TARGET: &[Whole] = &[0, 1, 9, 10, 99, 100, 510, 511];
const OFFSET: &[Whole] = &[0, 1, 10, 999, 1_000, 65_534, 65_535];
const VALUE: &[Whole] = &[0, 1, 17, 18, 65_536, 65_537, 99_999_999, 100_000_000, 1 << 31, MAX - 1, MAX];
const SIZE_END: &[Whole] = &[0, 1, 10, 9_999, 10_000, SIZE_LIMIT - 1, SIZE_LIMIT];
const BOUND: &[Whole] = &[
    -Limits::TODAY.bound,
    1 - Limits::TODAY.bound,
    -10_000_000_000_000,
    -9_999_999_999_999,
    -Limits::EARLIER.bound - 1,
    -Limits::EARLIER.bound,
    -1_000_000_000_000,
    -999_999_999_999,
    -MAX,
    -10,
    -9,
    -1,
    0,
    1,
    10,
    MAX + 1,
    999_999_999_999,
    Limits::EARLIER.bound,
    Limits::EARLIER.bound + 1,
    10_000_000_000_000,
    Limits::TODAY.bound - 1,
    Limits::TODAY.bound,
];
const IS_VARIABLE: &[Whole] = &[0];
const IS_NUMBER: &[Whole] = &[1];

const fn arithmetic(word: &'static [u8; 4], choice: &'static [Whole], operand: &'static [Whole]) -> Model {
    Model { word, fields: [REGISTER, VARIABLE, NONE, NONE, choice, operand] }
}

const fn branch(word: &'static [u8; 4], choice: &'static [Whole], operand: &'static [Whole]) -> Model {
    Model { word, fields: [NONE, VARIABLE, NONE, TARGET, choice, operand] }
}

const fn range_end(word: &'static [u8; 4], variable: &'static [Whole], end: &'static [Whole]) -> Model {
    Model { word, fields: [variable, NONE, NONE, NONE, NONE, end] }
}

/// Every word, with each kind of operand, register and size, a z and none.
pub const MODELS: [Model; DRAWN + 1] = [
    Model { word: b"STOP", fields: [NONE; 6] },
    range_end(b"SETC", REGISTER, VALUE),
    Model { word: b"COPY", fields: [REGISTER, VARIABLE, NONE, NONE, NONE, NONE] },
    arithmetic(b"ADDW", IS_VARIABLE, VARIABLE),
    arithmetic(b"ADDW", IS_NUMBER, VALUE),
    arithmetic(b"SUBW", IS_VARIABLE, VARIABLE),
    arithmetic(b"SUBW", IS_NUMBER, VALUE),
    arithmetic(b"MULW", IS_VARIABLE, VARIABLE),
    arithmetic(b"MULW", IS_NUMBER, VALUE),
    arithmetic(b"DIVF", IS_VARIABLE, VARIABLE),
    arithmetic(b"DIVF", IS_NUMBER, VALUE),
    Model { word: b"DIVM", fields: [EVEN, VARIABLE, ODD, NONE, IS_VARIABLE, VARIABLE] },
    Model { word: b"DIVM", fields: [ODD, VARIABLE, EVEN, NONE, IS_NUMBER, VALUE] },
    Model { word: b"LOAD", fields: [REGISTER, WIDTH, TABLE, SCALE, VARIABLE, OFFSET] },
    Model { word: b"STOR", fields: [VARIABLE, WIDTH, NONE, SCALE, VARIABLE, OFFSET] },
    Model { word: b"JUMP", fields: [NONE, NONE, NONE, TARGET, NONE, NONE] },
    branch(b"BLTU", IS_VARIABLE, VARIABLE),
    branch(b"BLTU", IS_NUMBER, VALUE),
    branch(b"BEQU", IS_VARIABLE, VARIABLE),
    branch(b"BEQU", IS_NUMBER, VALUE),
    range_end(b"LEAS", REGISTER, VALUE),
    range_end(b"LEAS", SIZE, SIZE_END),
    range_end(b"MOST", REGISTER, VALUE),
    range_end(b"MOST", SIZE, SIZE_END),
    Model { word: b"STRP", fields: [VARIABLE, SCALE, VARIABLE, NONE, NONE, BOUND] },
    Model { word: b"STRP", fields: [VARIABLE, SCALE, VARIABLE, VARIABLE, NONE, BOUND] },
    TURN,
];

/// The models that calls of any word draw from; TURN has a family of its own.
pub const DRAWN: usize = 26;

pub const TURN: Model = Model { word: b"TURN", fields: [REGISTER, NONE, NONE, NONE, NONE, NONE] };

impl Model {
    /// A call that is right in all but perhaps its line, in a short listing. The numbers of its blanks are any.
    pub fn call(&self, random: &mut Random) -> SetCall {
        let (line, length) = place(random);
        let listing = before(random, length);
        self.call_at(random, line, listing)
    }

    pub fn call_at(&self, random: &mut Random, line: u64, listing: Vec<u8>) -> SetCall {
        let unread = random_number(random);
        let numbers = [(); 6].map(|_| random.pick(&[0, 1, 10_000, unread, u64::MAX]));
        let mut call = SetCall { word: self.word.to_vec(), kinds: [0; 6], numbers, line, listing };
        for (field, fitting) in self.fields.iter().enumerate() {
            call.put(field, (!fitting.is_empty()).then(|| random.pick(fitting)));
        }
        call
    }
}

pub fn some_model(random: &mut Random) -> Model {
    random.pick(&MODELS[..DRAWN])
}

const DIGITS: u32 = 20;

/// A number of 1 to 20 digits, each count as often.
pub fn random_number(random: &mut Random) -> u64 {
    let least = 10u64.pow(random.below(DIGITS as usize) as u32);
    least.saturating_add(random.draw() % least.saturating_mul(9))
}

/// Ends of limits, powers of 2, and numbers that come out small where high bits are lost.
const CORNERS: [u64; 21] = [
    1,
    3,
    15,
    17,
    255,
    511,
    4_095,
    65_535,
    SIZE_LIMIT as u64,
    (1 << 16) + 16,
    1 << 31,
    MAX as u64,
    (1 << 32) + 4,
    Limits::EARLIER.bound as u64,
    Limits::TODAY.bound as u64,
    1 << 62,
    (1 << 63) - 1,
    1 << 63,
    u64::MAX - Limits::EARLIER.bound as u64,
    u64::MAX - Limits::TODAY.bound as u64,
    u64::MAX - 1,
];

/// The least and the greatest number of each count of digits, and every corner with its neighbours.
pub fn numbers() -> Vec<u64> {
    let least = (0..DIGITS).map(|zeros| 10u64.pow(zeros));
    let mut numbers: Vec<u64> = least.flat_map(|least| [least - 1, least, least + 1]).collect();
    numbers.extend(CORNERS.iter().flat_map(|corner| [corner - 1, *corner, corner + 1]));
    numbers.sort_unstable();
    numbers.dedup();
    numbers
}

//! One call that sets a line, and what it leaves.

use lines::LINE;
use reference::{set_line, Field, Numbers, Refusal, Whole};
use std::fmt::{Display, Formatter, Result};
use std::ops::Range;

/// The kinds of fields; any other byte is a field of wrong shape.
pub const BLANK: u8 = 0;
pub const NUMBER: u8 = 1;
/// Its number is without the minus.
pub const NEGATIVE: u8 = 2;

#[derive(Clone, Debug)]
pub struct SetCall {
    pub word: Vec<u8>,
    pub kinds: [u8; 6],
    pub numbers: [u64; 6],
    pub line: u64,
    pub listing: Vec<u8>,
}

/// The number and the place of the refusal, 0 and 0 where the line was set, and every byte of the listing after.
#[derive(Clone, PartialEq, Eq, Debug)]
pub struct SetAfter {
    pub number: u64,
    pub place: u64,
    pub listing: Vec<u8>,
}

pub type Setter<'a> = &'a dyn Fn(&SetCall) -> SetAfter;

pub fn set_by_reference(call: &SetCall) -> SetAfter {
    let mut listing = call.listing.clone();
    match set_line(&call.word, &call.fields(), call.line, &mut listing) {
        Ok(()) => SetAfter { number: 0, place: 0, listing },
        Err(Refusal { number, place, .. }) => SetAfter { number, place, listing },
    }
}

impl SetCall {
    pub fn fields(&self) -> [Field; 6] {
        std::array::from_fn(|at| match (self.kinds[at], Whole::from(self.numbers[at])) {
            (BLANK, _) => Field::Blank,
            (NUMBER, number) => Field::Number(number),
            (NEGATIVE, number) => Field::Negative(number),
            _ => Field::Misshapen,
        })
    }

    /// Makes a field a number, a negative one too, or blank.
    pub(crate) fn put(&mut self, field: usize, number: Option<Whole>) {
        self.kinds[field] = match number {
            None => BLANK,
            Some(number) if number < 0 => NEGATIVE,
            Some(_) => NUMBER,
        };
        if let Some(number) = number {
            self.numbers[field] = number.unsigned_abs() as u64;
        }
    }

    /// The numbers of the fields, none for a blank; of no use where a kind is wrong.
    pub(crate) fn written(&self) -> Numbers {
        std::array::from_fn(|at| match (self.kinds[at], Whole::from(self.numbers[at])) {
            (BLANK, _) => None,
            (NEGATIVE, number) => Some(-number),
            (_, number) => Some(number),
        })
    }

    /// The bytes of the line, where the listing holds them.
    pub(crate) fn span(&self) -> Option<Range<usize>> {
        let end = u128::from(self.line) * LINE as u128;
        let within = self.line > 0 && end <= self.listing.len() as u128;
        within.then(|| end as usize - LINE..end as usize)
    }
}

/// The call in one line, without the bytes of its listing. A blank is `_`.
impl Display for SetCall {
    fn fmt(&self, out: &mut Formatter) -> Result {
        write!(out, "'{}'", self.word.escape_ascii())?;
        for (kind, number) in self.kinds.iter().zip(self.numbers) {
            match *kind {
                BLANK => write!(out, " _")?,
                NUMBER => write!(out, " {number}")?,
                NEGATIVE => write!(out, " -{number}")?,
                other => write!(out, " (kind {other}, {number})")?,
            }
        }
        write!(out, ", line {} of a listing of {} bytes", self.line, self.listing.len())
    }
}

//! Sets one line from its word and fields: the fields are tested with what the reader uses, then written from the right.
//! Refusals 3 to 5, 19 and 18.

use crate::line::{due, settable, Fields, LINE, STRIPE_Z, STRP};
use crate::read::MOST_LINES;
use reference::refusals::{BAD_SHAPE, NO_SUCH_LINE, UNKNOWN_WORD};

const NUMBER: u8 = 1;
const NEGATIVE: u8 = 2;
/// The only field that may be negative.
const BOUND: usize = 5;

/// Number 0 where the line was set, else the refusal.
#[derive(Clone, Copy, Debug, PartialEq, Eq)]
pub struct Set {
    pub number: u64,
    pub place: u64,
}

/// Kind 0 is a blank, whose number is not looked at, 1 a number, 2 a negative number without its minus, any other a
/// field of wrong shape. Lines count from 1. A refusal leaves every byte.
pub fn set_line(word: &[u8], kinds: &[u8; 6], numbers: &[u64; 6], line: usize, listing: &mut [u8]) -> Set {
    let (word, fields) = match tested(word, kinds, numbers) {
        Ok(tested) => tested,
        Err(number) => return Set { number, place: line as u64 },
    };
    // line 0 comes out as the greatest number, which no listing has
    let lines = listing.as_chunks_mut::<LINE>().0;
    match lines.get_mut(line.wrapping_sub(1)).filter(|_| line <= MOST_LINES) {
        None => Set { number: NO_SUCH_LINE, place: 0 },
        Some(columns) => {
            write(columns, word, &fields);
            Set { number: 0, place: 0 }
        }
    }
}

/// The word and fields of a line that a reader takes. Refusals 3 to 5 and 19.
#[inline]
fn tested(word: &[u8], kinds: &[u8; 6], numbers: &[u64; 6]) -> Result<([u8; 4], Fields), u64> {
    let word: [u8; 4] = word.try_into().map_err(|_| UNKNOWN_WORD)?;
    let code = u32::from_le_bytes(word);
    let due = due(code).ok_or(UNKNOWN_WORD)?;
    let fields = shaped(kinds, numbers).ok_or(BAD_SHAPE)?;
    let optional = if code == STRP { STRIPE_Z } else { 0 };
    if (fields.filled ^ due) & !optional != 0 || (fields.minus && code != STRP) {
        return Err(BAD_SHAPE);
    }
    settable(code, &fields)?;
    Ok((word, fields))
}

#[inline]
fn shaped(kinds: &[u8; 6], numbers: &[u64; 6]) -> Option<Fields> {
    let minus = kinds[BOUND] == NEGATIVE && numbers[BOUND] != 0;
    let mut filled = u8::from(minus) << BOUND;
    for (at, &kind) in kinds.iter().enumerate() {
        if kind == NUMBER {
            filled |= 1 << at;
        } else if kind != 0 && !(minus && at == BOUND) {
            return None;
        }
    }
    Some(Fields { numbers: *numbers, filled, minus })
}

#[inline]
fn write(line: &mut [u8; LINE], word: [u8; 4], fields: &Fields) {
    *line = [b' '; LINE];
    line[..4].copy_from_slice(&word);
    line[LINE - 1] = b'\n';
    for (at, columns) in line[4..24].as_chunks_mut::<4>().0.iter_mut().enumerate() {
        if fields.filled & 1 << at != 0 {
            write_short(columns, fields.numbers[at] as u16);
        }
    }
    if fields.filled & 1 << BOUND != 0 {
        write_long(&mut line[24..39], fields.numbers[BOUND], fields.minus);
    }
}

/// A number within the limits of F1 to F5.
#[inline]
fn write_short(columns: &mut [u8; 4], number: u16) {
    columns[3] = b'0' + (number % 10) as u8;
    if number >= 10 {
        columns[2] = b'0' + (number / 10 % 10) as u8;
    }
    if number >= 100 {
        columns[1] = b'0' + (number / 100 % 10) as u8;
    }
    if number >= 1000 {
        columns[0] = b'0' + (number / 1000) as u8;
    }
}

#[inline]
fn write_long(columns: &mut [u8], mut number: u64, minus: bool) {
    let mut from_right = columns.iter_mut().rev();
    for column in &mut from_right {
        *column = b'0' + (number % 10) as u8;
        number /= 10;
        if number == 0 {
            break;
        }
    }
    if let Some(column) = from_right.next().filter(|_| minus) {
        *column = b'-';
    }
}

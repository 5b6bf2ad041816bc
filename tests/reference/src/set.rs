//! Sets one line of a listing from a word and six fields. Refusals 3 to 5 in that order, each over all fields, then 19,
//! then 18.
//! What a word wants in its fields stands here a second time, so that reading and setting can be tried on each other.

use crate::limits::Limits;
use crate::line::{Whole, MAX, SIZE_LIMIT};
use crate::listing::{Refusal, LINE_BYTES, LONGEST};
use crate::refusals::{BAD_SHAPE, NO_SUCH_LINE, ONE_REGISTER_TWICE, OUT_OF_LIMITS, UNKNOWN_WORD};
use std::ops::Range;

/// What a call puts in a field. The number of `Negative` is without its minus; `Misshapen` is neither blank nor number.
#[derive(Clone, Copy, Debug, PartialEq, Eq)]
pub enum Field {
    Blank,
    Number(Whole),
    Negative(Whole),
    Misshapen,
}

/// What a word wants in a field.
#[derive(Clone, Copy, PartialEq, Eq)]
enum Wanted {
    Blank,
    Register,
    Variable,
    VariableOrBlank,
    Width,
    Table,
    Scale,
    Target,
    Offset,
    /// Any value of a register.
    Value,
    /// F5 of an operand: whether F6 is a variable or a number.
    Choice,
    /// F6 of an operand.
    Operand,
    /// F6 of LEAS and MOST, whose limit depends on the variable in F1.
    RangeEnd,
    /// F6 of STRP, which alone may be negative.
    Bound,
}

/// Writes the line, counted from 1, and leaves every other byte. A call that is turned back leaves all of them.
pub fn set_line(word: &[u8], fields: &[Field; 6], line: u64, listing: &mut [u8]) -> Result<(), Refusal> {
    set_line_within(Limits::TODAY, word, fields, line, listing)
}

pub fn set_line_within(
    limits: Limits,
    word: &[u8],
    fields: &[Field; 6],
    line: u64,
    listing: &mut [u8],
) -> Result<(), Refusal> {
    let Some(wanted) = wanted(word) else { return Err(Refusal::new(UNKNOWN_WORD, line)) };
    if !(0..6).all(|at| has_shape(wanted[at], fields[at])) {
        return Err(Refusal::new(BAD_SHAPE, line));
    }
    let fits = |at: usize| text(fields[at]).len() <= columns(at).len();
    if !(0..6).all(|at| fits(at) && within_limits(limits, wanted[at], fields[at], fields)) {
        return Err(Refusal::new(OUT_OF_LIMITS, line));
    }
    if word == b"DIVM" && fields[0] == fields[2] {
        return Err(Refusal::new(ONE_REGISTER_TWICE, line));
    }
    let Some(place) = place(line, listing) else { return Err(Refusal::new(NO_SUCH_LINE, 0)) };
    listing[place].copy_from_slice(&written(word, fields));
    Ok(())
}

fn wanted(word: &[u8]) -> Option<[Wanted; 6]> {
    use Wanted::{
        Blank, Bound, Choice, Offset, Operand, RangeEnd, Register, Scale, Table, Target, Value, Variable,
        VariableOrBlank, Width,
    };
    match word {
        b"STOP" => Some([Blank, Blank, Blank, Blank, Blank, Blank]),
        b"SETC" => Some([Register, Blank, Blank, Blank, Blank, Value]),
        b"COPY" => Some([Register, Variable, Blank, Blank, Blank, Blank]),
        b"ADDW" | b"SUBW" | b"MULW" | b"DIVF" => Some([Register, Variable, Blank, Blank, Choice, Operand]),
        b"DIVM" => Some([Register, Variable, Register, Blank, Choice, Operand]),
        b"LOAD" => Some([Register, Width, Table, Scale, Variable, Offset]),
        b"STOR" => Some([Variable, Width, Blank, Scale, Variable, Offset]),
        b"JUMP" => Some([Blank, Blank, Blank, Target, Blank, Blank]),
        b"BLTU" | b"BEQU" => Some([Blank, Variable, Blank, Target, Choice, Operand]),
        b"LEAS" | b"MOST" => Some([Variable, Blank, Blank, Blank, Blank, RangeEnd]),
        b"STRP" => Some([Variable, Scale, Variable, VariableOrBlank, Blank, Bound]),
        b"TURN" => Some([Register, Blank, Blank, Blank, Blank, Blank]),
        _ => None,
    }
}

fn has_shape(wanted: Wanted, field: Field) -> bool {
    match field {
        Field::Blank => matches!(wanted, Wanted::Blank | Wanted::VariableOrBlank),
        Field::Number(_) => wanted != Wanted::Blank,
        Field::Negative(number) => wanted == Wanted::Bound && number != 0,
        Field::Misshapen => false,
    }
}

/// Whether a field of the right shape is within its limits.
fn within_limits(limits: Limits, wanted: Wanted, field: Field, fields: &[Field; 6]) -> bool {
    let number = match field {
        Field::Number(number) => number,
        Field::Negative(number) => -number,
        Field::Blank | Field::Misshapen => return true,
    };
    let allowed = match wanted {
        Wanted::Blank => return false,
        Wanted::Width => return [1, 2, 4].contains(&number),
        Wanted::Register => 0..=15,
        Wanted::Variable | Wanted::VariableOrBlank => 0..=17,
        Wanted::Table | Wanted::Choice => 0..=1,
        Wanted::Scale => return limits.has_scale(number),
        Wanted::Target => 0..=511,
        Wanted::Offset => 0..=65_535,
        Wanted::Operand if fields[4] == Field::Number(0) => 0..=17,
        Wanted::RangeEnd if matches!(fields[0], Field::Number(16 | 17)) => 0..=SIZE_LIMIT,
        Wanted::Operand | Wanted::RangeEnd | Wanted::Value => 0..=MAX,
        Wanted::Bound => return limits.has_bound(number),
    };
    allowed.contains(&number)
}

/// The bytes of a listing that are its line with this number, if they are there and a listing may have so many lines.
fn place(line: u64, listing: &[u8]) -> Option<Range<usize>> {
    let end = Whole::from(line) * LINE_BYTES as Whole;
    if line == 0 || end > LONGEST as Whole || end > listing.len() as Whole {
        return None;
    }
    Some(end as usize - LINE_BYTES..end as usize)
}

fn written(word: &[u8], fields: &[Field; 6]) -> [u8; LINE_BYTES] {
    let mut line = [b' '; LINE_BYTES];
    line[0..4].copy_from_slice(word);
    for (at, field) in fields.iter().enumerate() {
        let text = text(*field);
        let end = columns(at).end;
        line[end - text.len()..end].copy_from_slice(text.as_bytes());
    }
    line[39] = b'\n';
    line
}

/// The bytes of F1 to F6 within a line.
fn columns(field: usize) -> Range<usize> {
    [4..8, 8..12, 12..16, 16..20, 20..24, 24..39][field].clone()
}

fn text(field: Field) -> String {
    match field {
        Field::Blank | Field::Misshapen => String::new(),
        Field::Number(number) => format!("{number}"),
        Field::Negative(number) => format!("-{number}"),
    }
}

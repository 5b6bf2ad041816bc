//! One line of 40 bytes: its columns, its word, its fields and their limits. Refusals 2 to 5 in that order, then 19.

use crate::limits::Limits;
use crate::refusals::{BAD_BYTE, BAD_SHAPE, ONE_REGISTER_TWICE, OUT_OF_LIMITS, UNKNOWN_WORD};

pub type Whole = i128;

/// The greatest value of a register.
pub const MAX: Whole = 4_294_967_295;
/// The greatest size of a table in bytes.
pub const SIZE_LIMIT: Whole = 65_536;
pub const REGISTERS: usize = 16;
/// The variable that is the size of table 0.
pub const TRAYS_SIZE: usize = 16;
/// The variable that is the size of table 1.
pub const RESULTS_SIZE: usize = 17;
pub const VARIABLES: usize = 18;
/// Targets are below this.
pub const TARGETS: Whole = 512;

const OFFSET_LIMIT: Whole = 65_535;

#[derive(Clone, Copy, Debug, PartialEq, Eq)]
pub enum Operand {
    Variable(usize),
    Number(Whole),
}

#[derive(Clone, Copy, Debug, PartialEq, Eq)]
pub enum Arithmetic {
    Add,
    Subtract,
    Multiply,
    Divide,
}

#[derive(Clone, Copy, Debug, PartialEq, Eq)]
pub enum Comparison {
    Less,
    Equal,
}

/// `DivMod` writes the quotient of i by o, rounded down, to q and the remainder to r.
#[derive(Clone, Copy, Debug, PartialEq, Eq)]
pub enum Instruction {
    Stop,
    Set { d: usize, number: Whole },
    Copy { d: usize, i: usize },
    Compute { kind: Arithmetic, d: usize, i: usize, o: Operand },
    DivMod { q: usize, i: usize, r: usize, o: Operand },
    Load { d: usize, width: Whole, table: Whole, scale: Whole, i: usize, offset: Whole },
    Store { stored: usize, width: Whole, scale: Whole, i: usize, offset: Whole },
    Jump { target: usize },
    Branch { kind: Comparison, i: usize, target: usize, o: Operand },
}

impl Instruction {
    /// The point that it may go to, if it jumps or branches.
    pub fn target(&self) -> Option<usize> {
        match *self {
            Instruction::Jump { target } | Instruction::Branch { target, .. } => Some(target),
            _ => None,
        }
    }

    /// The registers that it writes.
    pub fn written(&self) -> Vec<usize> {
        match *self {
            Instruction::Stop | Instruction::Store { .. } | Instruction::Jump { .. } | Instruction::Branch { .. } => {
                vec![]
            }
            Instruction::Set { d, .. }
            | Instruction::Copy { d, .. }
            | Instruction::Compute { d, .. }
            | Instruction::Load { d, .. } => vec![d],
            Instruction::DivMod { q, r, .. } => vec![q, r],
        }
    }

    /// What it divides by, if it divides.
    pub fn divisor(&self) -> Option<Operand> {
        match *self {
            Instruction::Compute { kind: Arithmetic::Divide, o, .. } | Instruction::DivMod { o, .. } => Some(o),
            _ => None,
        }
    }
}

/// x − a × (y + z) ≥ b; without a z, z counts 0.
#[derive(Clone, Copy, Debug, PartialEq, Eq)]
pub struct Stripe {
    pub x: usize,
    pub a: Whole,
    pub y: usize,
    pub z: Option<usize>,
    pub b: Whole,
}

#[derive(Clone, Copy, Debug, PartialEq, Eq)]
pub enum Claim {
    Least { v: usize, value: Whole },
    Most { v: usize, value: Whole },
    Stripe(Stripe),
}

/// `Turn` names a register and claims nothing.
#[derive(Clone, Copy, Debug, PartialEq, Eq)]
pub enum Line {
    Turn(usize),
    Claim(Claim),
    Instruction(Instruction),
}

/// What the columns of a field must hold.
#[derive(Clone, Copy, PartialEq, Eq)]
enum Due {
    Blank,
    Number,
    NumberOrBlank,
    SignedNumber,
}

/// The numbers of F1 to F6, none where a field is blank.
pub type Numbers = [Option<Whole>; 6];

/// The line's meaning, or the number of its first refusal.
pub fn read_line(line: &[u8]) -> Result<Line, u64> {
    read_line_within(Limits::TODAY, line)
}

pub fn read_line_within(limits: Limits, line: &[u8]) -> Result<Line, u64> {
    let (word, numbers) = shaped(line)?;
    let line = meaning(limits, word, &numbers).ok_or(OUT_OF_LIMITS)?;
    match line {
        Line::Instruction(Instruction::DivMod { q, r, .. }) if q == r => Err(ONE_REGISTER_TWICE),
        _ => Ok(line),
    }
}

/// The word and the numbers of a line that has a meaning, or the number of its first refusal.
pub fn read_fields(line: &[u8]) -> Result<(&[u8], Numbers), u64> {
    read_line(line)?;
    shaped(line)
}

/// The word and the numbers of a line, whatever their limits. Refusals 2 to 4.
fn shaped(line: &[u8]) -> Result<(&[u8], Numbers), u64> {
    if line[39] != 10 || line[..39].iter().any(|byte| !(32..=126).contains(byte)) {
        return Err(BAD_BYTE);
    }
    let word = &line[0..4];
    let due = fields_due(word).ok_or(UNKNOWN_WORD)?;
    let columns = [&line[4..8], &line[8..12], &line[12..16], &line[16..20], &line[20..24], &line[24..39]];
    let mut numbers: Numbers = [None; 6];
    for field in 0..6 {
        numbers[field] = read_field(columns[field], due[field]).ok_or(BAD_SHAPE)?;
    }
    Ok((word, numbers))
}

/// The fields of each word; none for a word that does not exist.
fn fields_due(word: &[u8]) -> Option<[Due; 6]> {
    use Due::{Blank as No, Number as Yes, NumberOrBlank as May, SignedNumber as Signed};
    Some(match word {
        b"STOP" => [No, No, No, No, No, No],
        b"SETC" => [Yes, No, No, No, No, Yes],
        b"COPY" => [Yes, Yes, No, No, No, No],
        b"ADDW" | b"SUBW" | b"MULW" | b"DIVF" => [Yes, Yes, No, No, Yes, Yes],
        b"DIVM" => [Yes, Yes, Yes, No, Yes, Yes],
        b"LOAD" => [Yes, Yes, Yes, Yes, Yes, Yes],
        b"STOR" => [Yes, Yes, No, Yes, Yes, Yes],
        b"JUMP" => [No, No, No, Yes, No, No],
        b"BLTU" | b"BEQU" => [No, Yes, No, Yes, Yes, Yes],
        b"LEAS" | b"MOST" => [Yes, No, No, No, No, Yes],
        b"STRP" => [Yes, Yes, Yes, May, No, Signed],
        b"TURN" => [Yes, No, No, No, No, No],
        _ => return None,
    })
}

/// The field's number, `Some(None)` for a blank that is allowed, and `None` for a bad shape.
fn read_field(columns: &[u8], due: Due) -> Option<Option<Whole>> {
    let text: Vec<u8> = columns.iter().copied().skip_while(|&byte| byte == b' ').collect();
    if text.is_empty() {
        return if matches!(due, Due::Blank | Due::NumberOrBlank) { Some(None) } else { None };
    }
    match due {
        Due::Blank => None,
        Due::Number | Due::NumberOrBlank => unsigned(&text).map(Some),
        Due::SignedNumber => signed(&text).map(Some),
    }
}

/// Digits only, at least one, and no zero before another digit.
fn unsigned(text: &[u8]) -> Option<Whole> {
    if text.is_empty() || !text.iter().all(u8::is_ascii_digit) {
        return None;
    }
    if text[0] == b'0' && text.len() > 1 {
        return None;
    }
    Some(text.iter().fold(0, |number, digit| number * 10 + Whole::from(digit - b'0')))
}

/// As `unsigned`, or a minus right before a number that is not 0.
fn signed(text: &[u8]) -> Option<Whole> {
    match text {
        [b'-', digits @ ..] => unsigned(digits).filter(|&number| number != 0).map(|number| -number),
        _ => unsigned(text),
    }
}

/// The meaning of well-shaped fields, or none where a number is outside its limits.
fn meaning(limits: Limits, word: &[u8], f: &Numbers) -> Option<Line> {
    match word {
        b"TURN" => register(f[0]).map(Line::Turn),
        b"LEAS" | b"MOST" | b"STRP" => claim(limits, word, f).map(Line::Claim),
        _ => instruction(limits, word, f).map(Line::Instruction),
    }
}

fn claim(limits: Limits, word: &[u8], f: &Numbers) -> Option<Claim> {
    if word == b"STRP" {
        let z = match f[3] {
            None => None,
            filled => Some(variable(filled)?),
        };
        let b = f[5].filter(|&bound| limits.has_bound(bound))?;
        return Some(Claim::Stripe(Stripe { x: variable(f[0])?, a: scale(limits, f[1])?, y: variable(f[2])?, z, b }));
    }
    let v = variable(f[0])?;
    let value = within(f[5], 0, if v < REGISTERS { MAX } else { SIZE_LIMIT })?;
    Some(if word == b"LEAS" { Claim::Least { v, value } } else { Claim::Most { v, value } })
}

fn instruction(limits: Limits, word: &[u8], f: &Numbers) -> Option<Instruction> {
    let compute =
        |kind| Some(Instruction::Compute { kind, d: register(f[0])?, i: variable(f[1])?, o: operand(f[4], f[5])? });
    let branch =
        |kind| Some(Instruction::Branch { kind, i: variable(f[1])?, target: target(f[3])?, o: operand(f[4], f[5])? });
    match word {
        b"STOP" => Some(Instruction::Stop),
        b"SETC" => Some(Instruction::Set { d: register(f[0])?, number: within(f[5], 0, MAX)? }),
        b"COPY" => Some(Instruction::Copy { d: register(f[0])?, i: variable(f[1])? }),
        b"ADDW" => compute(Arithmetic::Add),
        b"SUBW" => compute(Arithmetic::Subtract),
        b"MULW" => compute(Arithmetic::Multiply),
        b"DIVF" => compute(Arithmetic::Divide),
        b"DIVM" => div_mod(f),
        b"LOAD" => load(limits, f),
        b"STOR" => store(limits, f),
        b"JUMP" => Some(Instruction::Jump { target: target(f[3])? }),
        b"BLTU" => branch(Comparison::Less),
        b"BEQU" => branch(Comparison::Equal),
        _ => unreachable!("the word is known"),
    }
}

fn div_mod(f: &Numbers) -> Option<Instruction> {
    Some(Instruction::DivMod { q: register(f[0])?, i: variable(f[1])?, r: register(f[2])?, o: operand(f[4], f[5])? })
}

fn load(limits: Limits, f: &Numbers) -> Option<Instruction> {
    Some(Instruction::Load {
        d: register(f[0])?,
        width: width(f[1])?,
        table: within(f[2], 0, 1)?,
        scale: scale(limits, f[3])?,
        i: variable(f[4])?,
        offset: within(f[5], 0, OFFSET_LIMIT)?,
    })
}

fn store(limits: Limits, f: &Numbers) -> Option<Instruction> {
    Some(Instruction::Store {
        stored: variable(f[0])?,
        width: width(f[1])?,
        scale: scale(limits, f[3])?,
        i: variable(f[4])?,
        offset: within(f[5], 0, OFFSET_LIMIT)?,
    })
}

fn within(number: Option<Whole>, least: Whole, most: Whole) -> Option<Whole> {
    number.filter(|number| (least..=most).contains(number))
}

fn register(number: Option<Whole>) -> Option<usize> {
    within(number, 0, REGISTERS as Whole - 1).map(|number| number as usize)
}

fn variable(number: Option<Whole>) -> Option<usize> {
    within(number, 0, VARIABLES as Whole - 1).map(|number| number as usize)
}

fn target(number: Option<Whole>) -> Option<usize> {
    within(number, 0, TARGETS - 1).map(|number| number as usize)
}

fn scale(limits: Limits, number: Option<Whole>) -> Option<Whole> {
    number.filter(|&number| limits.has_scale(number))
}

fn width(number: Option<Whole>) -> Option<Whole> {
    number.filter(|number| [1, 2, 4].contains(number))
}

fn operand(choice: Option<Whole>, value: Option<Whole>) -> Option<Operand> {
    match choice {
        Some(0) => variable(value).map(Operand::Variable),
        Some(1) => within(value, 0, MAX).map(Operand::Number),
        _ => None,
    }
}

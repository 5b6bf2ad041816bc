//! One line of 40 bytes: the instruction or the claim it holds, or the number of its refusal, 2 to 5 or 19. A TURN that
//! is right is refused by 6 here, and let pass on the first line by who reads the listing. What a TURN needs is kept
//! cold, so that other lines do not pay for it.

use reference::refusals::{BAD_BYTE, BAD_ORDER, BAD_SHAPE, ONE_REGISTER_TWICE, OUT_OF_LIMITS, UNKNOWN_WORD};

pub const LINE: usize = 40;
pub const MAX: u64 = u32::MAX as u64;
pub const SIZE_LIMIT: u64 = 65_536;
pub const BOUND_LIMIT: u64 = 70_368_744_177_664;
pub const GREATEST_SCALE: u64 = 4_095;
pub const TRAYS_SIZE: u8 = 16;
pub const RESULTS_SIZE: u8 = 17;
/// Stands for a blank z.
pub const BLANK: u8 = 18;

const GREATEST_TARGET: u64 = 511;
const GREATEST_OFFSET: u64 = 65_535;

#[derive(Clone, Copy)]
pub enum Operand {
    Variable(u8),
    Number(u32),
}

#[derive(Clone, Copy)]
pub enum Instruction {
    Stop,
    Set { d: u8, number: u32 },
    Copy { d: u8, i: u8 },
    Add { d: u8, i: u8, o: Operand },
    Subtract { d: u8, i: u8, o: Operand },
    Multiply { d: u8, i: u8, o: Operand },
    Divide { d: u8, i: u8, o: Operand },
    Load { d: u8, width: u8, size: u8, scale: u16, i: u8, offset: u16 },
    Store { stored: u8, width: u8, scale: u16, i: u8, offset: u16 },
    Jump { target: u16 },
    Less { i: u8, target: u16, o: Operand },
    Equal { i: u8, target: u16, o: Operand },
    DivMod { q: u8, i: u8, r: u8, o: Operand },
}

/// The fields of a stripe stand in the choice itself, so that a claim takes 16 bytes and not 24.
#[derive(Clone, Copy)]
pub enum Claim {
    Least { v: u8, value: i64 },
    Most { v: u8, value: i64 },
    Stripe { x: u8, a: u16, y: u8, z: u8, b: i64 },
}

const _: () = assert!(size_of::<Claim>() == 16);

pub enum Line {
    Instruction(Instruction),
    Claim(Claim),
}

/// What was read, or the number of its refusal.
pub type Taken<T> = Result<T, u64>;

/// The numbers of F1 to F6, any where a field is blank, and which are filled, a bit each from F1 up.
pub struct Fields {
    pub numbers: [u64; 6],
    pub filled: u8,
    pub minus: bool,
}

const fn word(bytes: &[u8; 4]) -> u32 {
    u32::from_le_bytes(*bytes)
}

const STOP: u32 = word(b"STOP");
const SETC: u32 = word(b"SETC");
const COPY: u32 = word(b"COPY");
const ADDW: u32 = word(b"ADDW");
const SUBW: u32 = word(b"SUBW");
const MULW: u32 = word(b"MULW");
const DIVF: u32 = word(b"DIVF");
const LOAD: u32 = word(b"LOAD");
const STOR: u32 = word(b"STOR");
const JUMP: u32 = word(b"JUMP");
const BLTU: u32 = word(b"BLTU");
const BEQU: u32 = word(b"BEQU");
const LEAS: u32 = word(b"LEAS");
const MOST: u32 = word(b"MOST");
pub const STRP: u32 = word(b"STRP");
const DIVM: u32 = word(b"DIVM");
const TURN: u32 = word(b"TURN");

/// Which fields must be filled, a bit each from F1 up; STRP's F4 may be either.
#[inline]
pub fn due(word: u32) -> Option<u8> {
    Some(match word {
        STOP => 0b000000,
        SETC | LEAS | MOST => 0b100001,
        COPY => 0b000011,
        ADDW | SUBW | MULW | DIVF => 0b110011,
        LOAD => 0b111111,
        STOR => 0b111011,
        JUMP => 0b001000,
        BLTU | BEQU => 0b111010,
        STRP => 0b100111,
        DIVM => 0b110111,
        _ => return turn_due(word),
    })
}

#[cold]
fn turn_due(word: u32) -> Option<u8> {
    (word == TURN).then_some(0b000001)
}

pub const STRIPE_Z: u8 = 0b001000;

#[inline]
pub fn read_line(line: &[u8; LINE]) -> Taken<Line> {
    // the greatest of all bytes, counted from the space on, is found for many bytes at once
    let greatest = line[..39].iter().fold(0, |greatest: u8, byte| greatest.max(byte.wrapping_sub(b' ')));
    if greatest > b'~' - b' ' || line[39] != b'\n' {
        return Err(BAD_BYTE);
    }
    let word = u32::from_le_bytes([line[0], line[1], line[2], line[3]]);
    let due = due(word).ok_or(UNKNOWN_WORD)?;
    let fields = read_fields(line).ok_or(BAD_SHAPE)?;
    let optional = if word == STRP { STRIPE_Z } else { 0 };
    if (fields.filled ^ due) & !optional != 0 || (fields.minus && word != STRP) {
        return Err(BAD_SHAPE);
    }
    meaning(word, &fields)
}

#[inline]
fn read_fields(line: &[u8; LINE]) -> Option<Fields> {
    let mut fields = Fields { numbers: [0; 6], filled: 0, minus: false };
    for (at, columns) in line[4..24].as_chunks::<4>().0.iter().enumerate() {
        if *columns != *b"    " {
            fields.numbers[at] = read_short(*columns)?;
            fields.filled |= 1 << at;
        }
    }
    let columns = &line[24..39];
    let blanks = columns.iter().take_while(|&&byte| byte == b' ').count();
    if blanks < columns.len() {
        fields.minus = columns[blanks] == b'-';
        fields.numbers[5] = read_digits(&columns[blanks + usize::from(fields.minus)..])?;
        fields.filled |= 1 << 5;
    }
    if fields.minus && fields.numbers[5] == 0 {
        return None;
    }
    Some(fields)
}

/// The number in four columns that are not all blank.
#[inline]
fn read_short(columns: [u8; 4]) -> Option<u64> {
    match columns {
        [b' ', b' ', b' ', d @ b'0'..=b'9'] => Some(digit(d)),
        [b' ', b' ', c @ b'1'..=b'9', d @ b'0'..=b'9'] => Some(10 * digit(c) + digit(d)),
        [b' ', b @ b'1'..=b'9', c @ b'0'..=b'9', d @ b'0'..=b'9'] => Some(100 * digit(b) + 10 * digit(c) + digit(d)),
        _ => read_digits(&columns),
    }
}

#[inline]
fn digit(byte: u8) -> u64 {
    u64::from(byte & 15)
}

/// The number whose digits fill the columns.
#[inline]
fn read_digits(digits: &[u8]) -> Option<u64> {
    if digits.is_empty() || (digits[0] == b'0' && digits.len() > 1) {
        return None;
    }
    let mut number = 0;
    for byte in digits {
        if !byte.is_ascii_digit() {
            return None;
        }
        number = number * 10 + digit(*byte);
    }
    Some(number)
}

/// The line of a word whose fields are filled as is due.
#[inline]
pub fn meaning(word: u32, fields: &Fields) -> Taken<Line> {
    let f = &fields.numbers;
    let instruction = match word {
        STRP => return stripe(fields).map(Line::Claim),
        LEAS => return range_end(f).map(|(v, value)| Line::Claim(Claim::Least { v, value })),
        MOST => return range_end(f).map(|(v, value)| Line::Claim(Claim::Most { v, value })),
        STOP => Instruction::Stop,
        SETC => Instruction::Set { d: register(f[0])?, number: upto(f[5], MAX)? as u32 },
        COPY => Instruction::Copy { d: register(f[0])?, i: variable(f[1])? },
        ADDW => Instruction::Add { d: register(f[0])?, i: variable(f[1])?, o: operand(f)? },
        SUBW => Instruction::Subtract { d: register(f[0])?, i: variable(f[1])?, o: operand(f)? },
        MULW => Instruction::Multiply { d: register(f[0])?, i: variable(f[1])?, o: operand(f)? },
        DIVF => Instruction::Divide { d: register(f[0])?, i: variable(f[1])?, o: operand(f)? },
        LOAD => {
            let (d, width, size) = (register(f[0])?, width(f[1])?, TRAYS_SIZE + upto(f[2], 1)? as u8);
            Instruction::Load { d, width, size, scale: scale(f[3])?, i: variable(f[4])?, offset: offset(f[5])? }
        }
        STOR => {
            let (stored, width) = (variable(f[0])?, width(f[1])?);
            Instruction::Store { stored, width, scale: scale(f[3])?, i: variable(f[4])?, offset: offset(f[5])? }
        }
        JUMP => Instruction::Jump { target: target(f[3])? },
        BLTU => Instruction::Less { i: variable(f[1])?, target: target(f[3])?, o: operand(f)? },
        BEQU => Instruction::Equal { i: variable(f[1])?, target: target(f[3])?, o: operand(f)? },
        DIVM => div_mod(f)?,
        _ => return Err(turn_refusal(f)),
    };
    Ok(Line::Instruction(instruction))
}

#[cold]
fn turn_refusal(f: &[u64; 6]) -> u64 {
    register(f[0]).err().unwrap_or(BAD_ORDER)
}

/// Whether the fields of a line to be set, filled as is due, are right. Where a TURN may stand is not asked.
#[inline]
pub fn settable(word: u32, fields: &Fields) -> Taken<()> {
    match meaning(word, fields) {
        Err(BAD_ORDER) | Ok(_) => Ok(()),
        Err(number) => Err(number),
    }
}

/// The register of a TURN on the first line of a text that has been read. Inlined it would slow the reader down.
#[inline(never)]
pub fn turn_register(text: &[u8]) -> Option<u8> {
    let columns = text.strip_prefix(b"TURN")?.first_chunk()?;
    read_short(*columns).map(|number| number as u8)
}

#[inline]
fn stripe(fields: &Fields) -> Taken<Claim> {
    let f = &fields.numbers;
    let z = if fields.filled & STRIPE_Z == 0 { BLANK } else { variable(f[3])? };
    let size = upto(f[5], BOUND_LIMIT)? as i64;
    let b = if fields.minus { -size } else { size };
    Ok(Claim::Stripe { x: variable(f[0])?, a: scale(f[1])?, y: variable(f[2])?, z, b })
}

/// The variable and the value of LEAS or MOST.
#[inline]
fn range_end(f: &[u64; 6]) -> Taken<(u8, i64)> {
    let v = variable(f[0])?;
    let value = upto(f[5], if v < TRAYS_SIZE { MAX } else { SIZE_LIMIT })?;
    Ok((v, value as i64))
}

#[inline]
fn taken<T>(within_limits: bool, value: T) -> Taken<T> {
    within_limits.then_some(value).ok_or(OUT_OF_LIMITS)
}

#[inline]
fn upto(number: u64, most: u64) -> Taken<u64> {
    taken(number <= most, number)
}

#[inline]
fn register(number: u64) -> Taken<u8> {
    taken(number < u64::from(TRAYS_SIZE), number as u8)
}

#[inline]
fn variable(number: u64) -> Taken<u8> {
    taken(number < u64::from(BLANK), number as u8)
}

#[inline]
fn target(number: u64) -> Taken<u16> {
    taken(number <= GREATEST_TARGET, number as u16)
}

#[inline]
fn offset(number: u64) -> Taken<u16> {
    taken(number <= GREATEST_OFFSET, number as u16)
}

#[inline]
fn scale(number: u64) -> Taken<u16> {
    taken((1..=GREATEST_SCALE).contains(&number), number as u16)
}

#[inline]
fn width(number: u64) -> Taken<u8> {
    taken(matches!(number, 1 | 2 | 4), number as u8)
}

#[inline]
fn operand(f: &[u64; 6]) -> Taken<Operand> {
    match f[4] {
        0 => variable(f[5]).map(Operand::Variable),
        1 => upto(f[5], MAX).map(|number| Operand::Number(number as u32)),
        _ => Err(OUT_OF_LIMITS),
    }
}

/// The registers are compared last: 19 comes after 5.
#[inline]
fn div_mod(f: &[u64; 6]) -> Taken<Instruction> {
    let (q, i, r, o) = (register(f[0])?, variable(f[1])?, register(f[2])?, operand(f)?);
    if q == r {
        return Err(ONE_REGISTER_TWICE);
    }
    Ok(Instruction::DivMod { q, i, r, o })
}

//! Listings of one line, with every content of a field's columns over a few bytes: what a reader of columns can meet.

use crate::random::Random;
use lines::{listing, LINE};

/// A line of each word as it may stand, of which one field at a time is overwritten.
const RIGHT: &str = "STOP; SETC 3 _ _ _ _ 7; COPY 3 4; ADDW 3 4 _ _ 1 7; SUBW 3 4 _ _ 0 7; MULW 3 4 _ _ 1 7;
    DIVF 3 4 _ _ 1 7; LOAD 3 2 1 4 5 6; STOR 3 4 _ 4 5 6; JUMP _ _ _ 0; BLTU _ 3 _ 0 1 7; BEQU _ 3 _ 0 0 7;
    LEAS 3 _ _ _ _ 7; MOST 17 _ _ _ _ 7; STRP 17 4 3 2 _ -7; DIVM 3 4 5 _ 1 7; TURN 3";
/// A space, a minus, the digits at both ends and one between, and a byte that no number has.
const BYTES: &[u8] = b" -019x";
const SHORT: usize = 4;
const FIRST_COLUMN: usize = 4;
const LONG_AT: usize = 24;
const LONG: usize = 15;

/// Each of the five short fields of each word: every content of its four columns over the bytes.
pub fn short(_: &mut Random) -> Vec<Vec<u8>> {
    let contents: Vec<Vec<u8>> = (0..BYTES.len().pow(SHORT as u32)).map(content).collect();
    let fields = (0..5).map(|field| FIRST_COLUMN + SHORT * field);
    fields.flat_map(|at| overwritten(at, &contents)).collect()
}

/// F6 of each word: numbers of every length with and without a minus, and each with every byte in every column.
pub fn long(_: &mut Random) -> Vec<Vec<u8>> {
    let mut contents = Vec::new();
    for length in 0..=LONG {
        for number in [vec![b'9'; length], first(b'1', length), first(b'0', length), first(b'-', length)] {
            let right: Vec<u8> = [vec![b' '; LONG - length], number].concat();
            for at in 0..LONG {
                contents.extend(BYTES.iter().map(|byte| with(&right, at, *byte)));
            }
        }
    }
    contents.sort();
    contents.dedup();
    overwritten(LONG_AT, &contents)
}

/// The four columns with this number, its digits being the bytes.
fn content(number: usize) -> Vec<u8> {
    (0..SHORT as u32).map(|at| BYTES[number / BYTES.len().pow(at) % BYTES.len()]).collect()
}

/// A byte and then zeros, nines after a minus.
fn first(byte: u8, length: usize) -> Vec<u8> {
    let rest = if byte == b'-' { b'9' } else { b'0' };
    (0..length).map(|at| if at == 0 { byte } else { rest }).collect()
}

fn with(columns: &[u8], at: usize, byte: u8) -> Vec<u8> {
    let mut columns = columns.to_vec();
    columns[at] = byte;
    columns
}

fn overwritten(at: usize, contents: &[Vec<u8>]) -> Vec<Vec<u8>> {
    let right = listing(RIGHT);
    let each = |line: &[u8]| -> Vec<Vec<u8>> { contents.iter().map(|content| set(line, at, content)).collect() };
    right.chunks(LINE).flat_map(each).collect()
}

fn set(line: &[u8], at: usize, content: &[u8]) -> Vec<u8> {
    let mut line = line.to_vec();
    line[at..at + content.len()].copy_from_slice(content);
    line
}

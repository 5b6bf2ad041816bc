//! Makes a listing smaller while it keeps a property: fewer lines, blank fields, smaller numbers.

use lines::{FIELDS, LINE};
use std::cell::Cell;
use std::collections::BTreeSet;

type Keeps<'a> = &'a dyn Fn(&[u8]) -> bool;

const TARGET_FIELD: usize = 3;
const MOST_TRIES: u32 = 20_000;
/// Numbers below this are tried in place of a larger one.
const SMALL_NUMBERS: i128 = 8;

/// The smallest listing found that still keeps the property, after a bounded number of tries.
pub fn shrink(listing: &[u8], keeps: Keeps) -> Vec<u8> {
    let tries = Cell::new(0);
    let keeps: Keeps = &|candidate| {
        tries.set(tries.get() + 1);
        tries.get() <= MOST_TRIES && keeps(candidate)
    };
    let mut smallest = listing.to_vec();
    loop {
        let before = smallest.clone();
        drop_lines(&mut smallest, keeps);
        drop_equal_claims(&mut smallest, keeps);
        drop_last_bytes(&mut smallest, keeps);
        blank_fields(&mut smallest, keeps);
        lower_numbers(&mut smallest, keeps);
        lower_everywhere(&mut smallest, keeps);
        if smallest == before {
            return smallest;
        }
    }
}

/// Takes the candidate if it keeps the property.
fn take(smallest: &mut Vec<u8>, candidate: Vec<u8>, keeps: Keeps) -> bool {
    let taken = candidate != *smallest && keeps(&candidate);
    if taken {
        *smallest = candidate;
    }
    taken
}

/// Drops runs of lines, long ones first, as they are or with the targets behind them moved along.
fn drop_lines(smallest: &mut Vec<u8>, keeps: Keeps) {
    let mut run = (smallest.len() / LINE).max(1);
    while run > 0 {
        let mut at = 0;
        while at * LINE < smallest.len() {
            let dropped = without(smallest, at, run);
            let moved = retargeted(smallest, at, run);
            if !take(smallest, moved, keeps) && !take(smallest, dropped, keeps) {
                at += 1;
            }
        }
        run /= 2;
    }
}

/// Drops a claim at all points at once, since what leads to one of them may owe it.
fn drop_equal_claims(smallest: &mut Vec<u8>, keeps: Keeps) {
    let claims: BTreeSet<Vec<u8>> = smallest.chunks(LINE).filter(|line| is_claim(line)).map(<[u8]>::to_vec).collect();
    for claim in claims {
        let candidate = smallest.chunks(LINE).filter(|line| *line != claim).collect::<Vec<_>>().concat();
        take(smallest, candidate, keeps);
    }
}

fn without(listing: &[u8], at: usize, run: usize) -> Vec<u8> {
    let end = ((at + run) * LINE).min(listing.len());
    [&listing[..at * LINE], &listing[end..]].concat()
}

/// As `without`, and each target beyond the dropped points falls by their number.
fn retargeted(listing: &[u8], at: usize, run: usize) -> Vec<u8> {
    let points = |lines: &[u8]| lines.chunks(LINE).filter(|line| !is_claim(line)).count();
    let end = ((at + run) * LINE).min(listing.len());
    let first = points(&listing[..at * LINE]);
    let dropped = points(&listing[at * LINE..end]);
    let mut shorter = without(listing, at, run);
    for line in shorter.chunks_exact_mut(LINE) {
        let jumps = matches!(&line[..4], b"JUMP" | b"BLTU" | b"BEQU");
        match number(line, TARGET_FIELD) {
            Some(target) if jumps && target >= (first + dropped) as i128 => {
                write(line, TARGET_FIELD, &(target - dropped as i128).to_string());
            }
            _ => {}
        }
    }
    shorter
}

/// Whether this is a whole line with a claim's word.
pub fn is_claim(line: &[u8]) -> bool {
    line.len() == LINE && matches!(&line[..4], b"TURN" | b"LEAS" | b"MOST" | b"STRP")
}

fn drop_last_bytes(smallest: &mut Vec<u8>, keeps: Keeps) {
    while let Some((_, shorter)) = smallest.split_last() {
        let candidate = shorter.to_vec();
        if smallest.len().is_multiple_of(LINE) || !take(smallest, candidate, keeps) {
            return;
        }
    }
}

fn blank_fields(smallest: &mut Vec<u8>, keeps: Keeps) {
    for at in 0..smallest.len() / LINE {
        for field in 0..FIELDS.len() {
            let candidate = with(smallest, at, field, "");
            take(smallest, candidate, keeps);
        }
    }
}

fn lower_numbers(smallest: &mut Vec<u8>, keeps: Keeps) {
    for at in 0..smallest.len() / LINE {
        for field in 0..FIELDS.len() {
            lower_number(smallest, at, field, keeps);
        }
    }
}

/// Tries smaller numbers in one field: 0, 1, half, three quarters and so on up to one less.
fn lower_number(smallest: &mut Vec<u8>, at: usize, field: usize, keeps: Keeps) {
    while let Some(present) = number(&smallest[at * LINE..(at + 1) * LINE], field) {
        let parts = (1..i128::BITS).map(|halvings| present / (1 << halvings)).take_while(|&part| part != 0);
        let less = parts.chain([present.signum()]).map(|part| present - part);
        let took = [0, 1].into_iter().chain(less).filter(|lower| lower.abs() < present.abs()).any(|lower| {
            let candidate = with(smallest, at, field, &lower.to_string());
            take(smallest, candidate, keeps)
        });
        if !took {
            return;
        }
    }
}

/// Lowers a number in all fields that hold it at once, as a variable's name needs.
fn lower_everywhere(smallest: &mut Vec<u8>, keeps: Keeps) {
    for present in numbers(smallest) {
        let took = (0..present.min(SMALL_NUMBERS)).any(|lower| {
            let candidate = renumbered(smallest, present, lower);
            take(smallest, candidate, keeps)
        });
        if took {
            return;
        }
    }
}

/// The numbers in all fields, each once.
fn numbers(listing: &[u8]) -> BTreeSet<i128> {
    let in_line = |line| (0..FIELDS.len()).filter_map(move |field| number(line, field));
    listing.chunks_exact(LINE).flat_map(in_line).collect()
}

fn renumbered(listing: &[u8], present: i128, lower: i128) -> Vec<u8> {
    let mut changed = listing.to_vec();
    for line in changed.chunks_exact_mut(LINE) {
        for field in 0..FIELDS.len() {
            if number(line, field) == Some(present) {
                write(line, field, &lower.to_string());
            }
        }
    }
    changed
}

fn with(listing: &[u8], at: usize, field: usize, text: &str) -> Vec<u8> {
    let mut changed = listing.to_vec();
    write(&mut changed[at * LINE..(at + 1) * LINE], field, text);
    changed
}

/// Writes text at the right end of a field.
pub fn write(line: &mut [u8], field: usize, text: &str) {
    let (start, end) = FIELDS[field];
    line[start..end].fill(b' ');
    line[end - text.len()..end].copy_from_slice(text.as_bytes());
}

/// The number in a field, if it holds one and nothing else.
pub fn number(line: &[u8], field: usize) -> Option<i128> {
    let (start, end) = FIELDS[field];
    std::str::from_utf8(&line[start..end]).ok()?.trim_start().parse().ok()
}

#[cfg(test)]
mod tests {
    use super::*;
    use lines::listing;

    #[test]
    fn only_what_matters_is_left() {
        let long =
            listing("SETC 3 _ _ _ _ 77; LEAS 2 _ _ _ _ 5; JUMP _ _ _ 3; STOP; STRP 17 4 1 2 _ -900; COPY 1 2; STOP");
        let keeps = |listing: &[u8]| listing.chunks(LINE).any(|line| line.starts_with(b"STRP") && line[38] != b' ');
        assert_eq!(shrink(&long, &keeps), listing("STRP _ _ _ _ _ 0"));
    }

    #[test]
    fn a_large_threshold_is_found_in_few_tries() {
        let long = listing("SETC 0 _ _ _ _ 999999999999999");
        let keeps = |listing: &[u8]| listing.len() == LINE && number(listing, 5) >= Some(700_000_000_001);
        assert_eq!(shrink(&long, &keeps), listing("SETC _ _ _ _ _ 700000000001"));
    }

    #[test]
    fn a_variable_is_renamed_everywhere() {
        let long = listing("LEAS 9 _ _ _ _ 7; SETC 9 _ _ _ _ 7; STOP");
        let keeps = |listing: &[u8]| {
            let lines: Vec<&[u8]> = listing.chunks(LINE).collect();
            lines.len() >= 2 && lines[0].starts_with(b"LEAS") && lines[0][4..] == lines[1][4..] && lines[0][7] != b' '
        };
        assert_eq!(shrink(&long, &keeps), listing("LEAS 0 _ _ _ _ 0; SETC 0 _ _ _ _ 0"));
    }

    #[test]
    fn a_claim_at_every_point_goes_at_once() {
        let long = listing("MOST 1 _ _ _ _ 5; COPY 2 3; MOST 1 _ _ _ _ 5; JUMP _ _ _ 0");
        let passes = |listing: &[u8]| reference::check(listing).points == 2;
        assert_eq!(shrink(&long, &passes), listing("COPY 0 0; JUMP _ _ _ 0"));
    }

    #[test]
    fn targets_move_along_with_dropped_points() {
        let long = listing("STOP; STOP; JUMP _ _ _ 3; STOP");
        let keeps = |listing: &[u8]| reference::check(listing).number == 0 && listing.starts_with(b"JUMP");
        let jumps_ahead = |listing: &[u8]| keeps(listing) || listing == long;
        assert_eq!(shrink(&long, &jumps_ahead), listing("JUMP _ _ _ 0"));
    }
}

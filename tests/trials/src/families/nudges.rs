//! Near misses: a routine that passes, with one thing about it changed.

use super::routines::{dealing, routine};
use crate::random::Random;
use crate::shrink::{number, write};
use lines::{FIELDS, LINE};

const CHANGES: usize = 8;

/// Several changes of one routine, each of one number in one field.
pub fn nudged(random: &mut Random) -> Vec<Vec<u8>> {
    let text = routine(random).text();
    (0..CHANGES).map(|_| nudge(random, &text)).collect()
}

/// The same of a routine that divides with remainder.
pub fn dealing_nudged(random: &mut Random) -> Vec<Vec<u8>> {
    let text = dealing(random).text();
    (0..CHANGES).map(|_| nudge(random, &text)).collect()
}

/// One number in one field changed by a little.
pub fn nudge(random: &mut Random, text: &[u8]) -> Vec<u8> {
    let mut changed = text.to_vec();
    loop {
        let at = random.below(text.len() / LINE) * LINE;
        let field = random.below(FIELDS.len());
        let line = &mut changed[at..at + LINE];
        let Some(present) = number(line, field) else { continue };
        let near = present + random.pick(&[1, 1, -1, -1, 2, -2, 4, -4, 17]);
        let text = near.to_string();
        let (start, end) = FIELDS[field];
        if text.len() <= end - start {
            write(line, field, &text);
            return changed;
        }
    }
}

/// Several changes of one routine, each of one whole line.
pub fn rearranged(random: &mut Random) -> Vec<Vec<u8>> {
    let text = routine(random).text();
    (0..CHANGES).map(|_| rearrange(random, &text)).collect()
}

fn rearrange(random: &mut Random, text: &[u8]) -> Vec<u8> {
    let mut lines: Vec<&[u8]> = text.chunks(LINE).collect();
    let (at, to) = (random.below(lines.len()), random.below(lines.len()));
    match random.below(4) {
        0 => drop(lines.remove(at)),
        1 => lines.insert(at, lines[at]),
        2 => {
            let line = lines.remove(at);
            lines.insert(to.min(lines.len()), line);
        }
        _ => lines.swap(at, to),
    }
    lines.concat()
}

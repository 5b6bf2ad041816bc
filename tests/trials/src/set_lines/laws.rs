//! What holds between a setter and the reference's reader, whatever the setter is.

use super::call::{SetAfter, SetCall, Setter};
use super::comparison::SetDifference;
use super::families::SetFamily;
use crate::families::Family;
use crate::random::Random;
use lines::LINE;
use reference::read_fields;
use std::collections::HashSet;

/// The listings that lines are set into have so many lines, and a few bytes more.
const LINES: usize = 3;
const BYTES_MORE: usize = 7;

/// Every line that the reader takes is the line that the setter makes of its word and fields, where each byte was
/// another before. How many different lines were tried, or the first that came out otherwise: what is due goes first.
pub fn lines_come_back(family: &Family, setter: Setter) -> Result<u64, Box<SetDifference>> {
    let (mut seen, mut tried) = (HashSet::new(), 0);
    for batch in 0..family.batches {
        let mut random = Random::new(batch);
        for listing in family.batch(batch) {
            let lines = listing.as_chunks::<LINE>().0;
            for line in lines.iter().filter(|line| seen.insert(**line)) {
                let Some((call, due)) = set_again(&mut random, line) else { continue };
                let after = setter(&call);
                if after != due {
                    let family = family.name;
                    return Err(Box::new(SetDifference { family, batch, call, left: due, right: after }));
                }
                tried += 1;
            }
        }
    }
    Ok(tried)
}

/// The call that sets a line among other bytes, and what it must leave; none for a line that the reader does not take.
fn set_again(random: &mut Random, line: &[u8; LINE]) -> Option<(SetCall, SetAfter)> {
    let (word, numbers) = read_fields(line).ok()?;
    let at = random.below(LINES);
    let mut listing = line.map(|byte| !byte).repeat(LINES);
    listing.extend([0; BYTES_MORE]);
    let mut due = listing.clone();
    due[at * LINE..(at + 1) * LINE].copy_from_slice(line);
    let mut call = SetCall { word: word.to_vec(), kinds: [0; 6], numbers: [0; 6], line: at as u64 + 1, listing };
    (0..6).for_each(|field| call.put(field, numbers[field]));
    Some((call, SetAfter { number: 0, place: 0, listing: due }))
}

/// What a call sets is read as its word and fields, and no other byte is changed; a call that is turned back changes
/// none. How many lines were set, or what is wrong.
pub fn set_lines_are_read(family: &SetFamily, setter: Setter) -> Result<u64, String> {
    let mut set = 0;
    for batch in 0..family.batches {
        for call in family.batch(batch) {
            let after = setter(&call);
            read_back(&call, &after).map_err(|why| format!("'{}', batch {batch}: {call}: {why}", family.name))?;
            set += u64::from(after.number == 0);
        }
    }
    Ok(set)
}

fn read_back(call: &SetCall, after: &SetAfter) -> Result<(), String> {
    let span = match after.number {
        0 => call.span().ok_or("the listing has no such line")?,
        _ => 0..0,
    };
    let kept = |listing: &[u8]| [&listing[..span.start], &listing[span.end..]].concat();
    if after.listing.len() != call.listing.len() || kept(&after.listing) != kept(&call.listing) {
        return Err("a byte outside the line is changed".to_string());
    }
    let line = &after.listing[span];
    if line.is_empty() {
        return Ok(());
    }
    match read_fields(line) {
        Ok((word, numbers)) if word == call.word && numbers == call.written() => Ok(()),
        other => Err(format!("'{}' is read as {other:?}", line.escape_ascii())),
    }
}

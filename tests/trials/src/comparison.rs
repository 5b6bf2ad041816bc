//! Two checkers side by side on every listing of a family.

use crate::families::Family;
use crate::shrink::shrink;
use crate::tally::Tally;
use reference::Answer;

/// A checker's answer to one listing and the line it prints.
#[derive(Clone, Copy, PartialEq, Eq, Debug)]
pub struct Verdict {
    pub answer: Answer,
    pub line: [u8; 40],
}

pub type Checker<'a> = &'a dyn Fn(&[u8]) -> Verdict;

pub fn of_reference(listing: &[u8]) -> Verdict {
    let answer = reference::check(listing);
    Verdict { answer, line: reference::printed(&answer) }
}

/// A listing on which two checkers differ, made as small as it could be.
#[derive(Debug)]
pub struct Difference {
    pub family: &'static str,
    pub batch: u64,
    pub listing: Vec<u8>,
    pub left: Verdict,
    pub right: Verdict,
}

impl std::fmt::Display for Difference {
    fn fmt(&self, out: &mut std::fmt::Formatter) -> std::fmt::Result {
        writeln!(out, "a difference in '{}', batch {}, made smaller:", self.family, self.batch)?;
        write!(out, "{}", readable(&self.listing))?;
        for (name, verdict) in [("first", &self.left), ("second", &self.right)] {
            writeln!(out, "{name}: {:?}, printed {:?}", verdict.answer, String::from_utf8_lossy(&verdict.line))?;
        }
        Ok(())
    }
}

/// One line of output for each line of the listing, with strange bytes made visible.
pub(crate) fn readable(listing: &[u8]) -> String {
    let line = |bytes: &[u8]| {
        let shown = bytes.strip_suffix(b"\n").unwrap_or(bytes);
        let ending = if shown.len() == bytes.len() { "| (no line feed)" } else { "|" };
        format!("  |{}{ending}\n", shown.escape_ascii())
    };
    if listing.is_empty() {
        return "  (the empty listing)\n".to_string();
    }
    listing.chunks(lines::LINE).map(line).collect()
}

/// Compares the two on every listing of the family. The tally counts the answers of the first.
pub fn compare(family: &Family, left: Checker, right: Checker) -> Result<Tally, Box<Difference>> {
    let mut tally = Tally::default();
    for batch in 0..family.batches {
        for listing in family.batch(batch) {
            let verdict = left(&listing);
            if verdict != right(&listing) {
                return Err(Box::new(difference(family, batch, &listing, left, right)));
            }
            tally.count(&verdict.answer);
        }
    }
    Ok(tally)
}

fn difference(family: &Family, batch: u64, listing: &[u8], left: Checker, right: Checker) -> Difference {
    let listing = shrink(listing, &|smaller| left(smaller) != right(smaller));
    let (left, right) = (left(&listing), right(&listing));
    Difference { family: family.name, batch, listing, left, right }
}

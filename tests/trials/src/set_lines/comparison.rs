//! Two setters side by side on every call of a family.

use super::call::{SetAfter, SetCall, Setter};
use super::families::SetFamily;
use super::tally::SetTally;
use crate::comparison::readable;
use lines::LINE;
use std::fmt::{Display, Formatter, Result as Written};

/// The first call on which two setters differ.
#[derive(Debug)]
pub struct SetDifference {
    pub family: &'static str,
    pub batch: u64,
    pub call: SetCall,
    pub left: SetAfter,
    pub right: SetAfter,
}

impl SetDifference {
    /// The first byte of the listing that differs after the call.
    pub fn first_byte(&self) -> Option<usize> {
        let (left, right) = (&self.left.listing, &self.right.listing);
        (0..left.len().max(right.len())).find(|&at| left.get(at) != right.get(at))
    }
}

impl Display for SetDifference {
    fn fmt(&self, out: &mut Formatter) -> Written {
        writeln!(out, "a difference in '{}', batch {}:\n{}", self.family, self.batch, self.call)?;
        let first = self.first_byte();
        for (name, after) in [("first", &self.left), ("second", &self.right)] {
            writeln!(out, "{name}: number {}, place {}, {} bytes", after.number, after.place, after.listing.len())?;
            let line = first.and_then(|at| after.listing.chunks(LINE).nth(at / LINE));
            write!(out, "{}", line.map_or(String::new(), readable))?;
        }
        match first {
            Some(at) => writeln!(out, "the first byte that differs is at offset {at}"),
            None => Ok(()),
        }
    }
}

/// Compares number, place and every byte on every call of the family. The tally counts the answers of the first.
pub fn compare_setters(family: &SetFamily, left: Setter, right: Setter) -> Result<SetTally, Box<SetDifference>> {
    let mut tally = SetTally::default();
    for batch in 0..family.batches {
        for call in family.batch(batch) {
            let (left, right) = (left(&call), right(&call));
            if left != right {
                return Err(Box::new(SetDifference { family: family.name, batch, call, left, right }));
            }
            tally.count(&call, &left);
        }
    }
    Ok(tally)
}

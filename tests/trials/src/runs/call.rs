//! One call of a runner, and everything that is there after it.

use crate::comparison::readable;
use reference::{Run, State};
use std::fmt;

/// What is lent to a runner.
#[derive(Clone, Debug, PartialEq, Eq)]
pub struct Call {
    pub listing: Vec<u8>,
    pub state: State,
    pub trays: Vec<u8>,
    pub results: Vec<u8>,
    pub budget: u32,
}

/// The answer with the state handed back, and every lent byte as the call left it.
#[derive(Clone, Debug, PartialEq, Eq)]
pub struct After {
    pub run: Run,
    pub listing: Vec<u8>,
    pub trays: Vec<u8>,
    pub results: Vec<u8>,
}

/// A runner and its name.
pub type Runner<'a> = (&'static str, &'a dyn Fn(&Call) -> After);

const BYTES_SHOWN: usize = 32;

impl Call {
    /// The same call with another listing.
    pub fn with_listing(&self, listing: &[u8]) -> Call {
        Call { listing: listing.to_vec(), ..self.clone() }
    }

    /// What the reference's own runner makes of it.
    pub fn by_reference(&self) -> After {
        let mut results = self.results.clone();
        let run = reference::run(&self.listing, self.state, &self.trays, &mut results, self.budget);
        After { run, listing: self.listing.clone(), trays: self.trays.clone(), results }
    }
}

/// The size of a table and its first bytes.
fn table(bytes: &[u8]) -> String {
    let more = if bytes.len() > BYTES_SHOWN { " .." } else { "" };
    format!("{} bytes {:?}{more}", bytes.len(), &bytes[..bytes.len().min(BYTES_SHOWN)])
}

impl fmt::Display for Call {
    fn fmt(&self, out: &mut fmt::Formatter) -> fmt::Result {
        write!(out, "{}", readable(&self.listing))?;
        writeln!(out, "  point {}, registers {:?}", self.state.point, self.state.registers)?;
        writeln!(out, "  trays {}", table(&self.trays))?;
        writeln!(out, "  results {}", table(&self.results))?;
        writeln!(out, "  budget {}", self.budget)
    }
}

impl After {
    /// What is there after the call, with the lent bytes that it should not have changed only where it did.
    pub fn shown(&self, call: &Call) -> String {
        let run = &self.run;
        let state = format!("point {}, registers {:?}", run.state.point, run.state.registers);
        let mut text = format!("{:?}, {} steps, {state}\n    results {}", run.outcome, run.steps, table(&self.results));
        if self.listing != call.listing {
            text += "\n    the listing was changed";
        }
        if self.trays != call.trays {
            text += "\n    the trays were changed";
        }
        text
    }
}

//! A listing as one has it who does not know refusal 19.

use lines::LINE;
use reference::read_line;
use reference::refusals::ONE_REGISTER_TWICE;
use trials::shrink::{number, write};

const QUOTIENT: usize = 0;
const REMAINDER: usize = 2;

/// The same listing with another register for the remainder wherever both results were in one.
pub fn mended(listing: &[u8]) -> Vec<u8> {
    let mut mended = listing.to_vec();
    for line in mended.chunks_exact_mut(LINE) {
        if read_line(line) == Err(ONE_REGISTER_TWICE) {
            let register = number(line, QUOTIENT).expect("19 comes after the shapes");
            write(line, REMAINDER, &((register + 1) % 16).to_string());
        }
    }
    mended
}

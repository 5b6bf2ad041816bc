//! The one line that the program prints.

use crate::checker::Answer;
use crate::refusals::CLAIM_DOES_NOT_FOLLOW;

/// PASS with the points in F6, or FAIL with the number in F1, the place in F6 and, for 14, the second place in F5.
pub fn printed(answer: &Answer) -> [u8; 40] {
    let text = match answer.number {
        0 => format!("PASS{:20}{:>15}\n", "", answer.points),
        CLAIM_DOES_NOT_FOLLOW => {
            format!("FAIL{:>4}{:12}{:>4}{:>15}\n", CLAIM_DOES_NOT_FOLLOW, "", answer.second, answer.place)
        }
        number => format!("FAIL{:>4}{:16}{:>15}\n", number, "", answer.place),
    };
    text.into_bytes().try_into().expect("the line has 40 bytes")
}

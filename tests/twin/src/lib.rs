//! The checker, the bound on steps, the setter and the runner as one would write them in plain safe Rust for speed: one
//! pass over the text, fixed arrays, no heap. They are the yardstick of the benchmark and give the same answers as the
//! other two.

mod bound;
mod facts;
mod follow;
mod line;
mod quotient;
mod read;
mod run;
mod set;
mod walk;

use line::{Claim, LINE};
use read::{in_room, read, Listing, Point};
use reference::refusals::NO_SUCH_POINT;

pub use run::{run, Outcome, Report, State};
pub use set::{set_line, Set};

/// Number 0 and the points for a listing that passes, else the number of the refusal and its places.
#[derive(Clone, Copy, Debug, PartialEq, Eq)]
pub struct Answer {
    pub number: u64,
    pub place: u64,
    pub second: u64,
    pub points: u64,
}

impl Answer {
    fn refused(number: u64, place: usize) -> Answer {
        Answer { number, place: place as u64, second: 0, points: 0 }
    }
}

pub fn check(text: &[u8]) -> Answer {
    in_room(text, |points, claims| match checked(text, points, claims) {
        Err(answer) => answer,
        Ok(listing) => Answer { number: 0, place: 0, second: 0, points: listing.points.len() as u64 },
    })
}

/// The most steps that a run from point 0 makes, else the refusal, 1 to 14, 19 or 20.
pub fn step_bound(text: &[u8]) -> Result<u64, Answer> {
    in_room(text, |points, claims| bound::bound(&checked(text, points, claims)?))
}

/// Refusals 1 to 14 and 19.
fn checked<'a>(text: &[u8], points: &'a mut [Point], claims: &'a mut [Claim]) -> Result<Listing<'a>, Answer> {
    let listing = read(text, points, claims)?;
    walk::walk(&listing)?;
    Ok(listing)
}

/// Number 0 and where the claim lines of a point stand in the listing, in bytes, else the refusal, 1 to 11, 19 or 16.
#[derive(Clone, Copy, Debug, PartialEq, Eq)]
pub struct Part {
    pub number: u64,
    pub place: u64,
    pub offset: u64,
    pub length: u64,
}

pub fn claim_part(text: &[u8], point: usize) -> Part {
    let found = in_room(text, |points, claims| {
        let listing = read(text, points, claims)?;
        listing.points.get(point).copied().ok_or(Answer::refused(NO_SUCH_POINT, 0))
    });
    match found {
        Err(Answer { number, place, .. }) => Part { number, place, offset: 0, length: 0 },
        Ok(point) => {
            let (first, claims) = (point.line - point.claims, u64::from(point.claims));
            Part { number: 0, place: 0, offset: u64::from(first) * LINE as u64, length: claims * LINE as u64 }
        }
    }
}

/// The line that the program prints for a listing.
pub fn printed(listing: &[u8]) -> [u8; 40] {
    let answer = check(listing);
    let mut line = [b' '; 40];
    line[39] = b'\n';
    if answer.number == 0 {
        line[..4].copy_from_slice(b"PASS");
        put(&mut line, 39, answer.points);
        return line;
    }
    line[..4].copy_from_slice(b"FAIL");
    put(&mut line, 8, answer.number);
    put(&mut line, 39, answer.place);
    if answer.second != 0 {
        put(&mut line, 24, answer.second);
    }
    line
}

/// Writes a number so that it ends right before `end`.
fn put(line: &mut [u8; 40], end: usize, mut number: u64) {
    let mut at = end;
    loop {
        at -= 1;
        line[at] = b'0' + (number % 10) as u8;
        number /= 10;
        if number == 0 {
            return;
        }
    }
}

#[cfg(test)]
mod tests {
    use super::*;
    use reference::refusals::*;

    #[test]
    fn prints_the_three_kinds_of_lines() {
        let line = |text: &str| lines::listing(text);
        assert_eq!(&printed(b""), b"FAIL   1                              0\n");
        assert_eq!(&printed(&line("STOP")), b"PASS                                  1\n");
        let claim = line("JUMP _ _ _ 1; LEAS 0 _ _ _ _ 1; STOP");
        assert_eq!(&printed(&claim), b"FAIL  14               2              1\n");
    }

    #[test]
    fn turn_stands_first_and_claims_nothing() {
        let answer = |text: &str| {
            let Answer { number, place, .. } = check(&lines::listing(text));
            (number, place)
        };
        assert_eq!(answer("TURN 15; STOP"), (0, 0));
        assert_eq!(answer("TURN 0; LEAS 0 _ _ _ _ 1; MOST 0 _ _ _ _ 1; STRP 0 1 0 _ _ 0; JUMP _ _ _ 0"), (0, 0));
        assert_eq!(answer(&format!("TURN 0; {} STOP", "STRP 0 1 0 _ _ 0;".repeat(8))), (0, 0));
        assert_eq!(answer(&format!("TURN 0; {} STOP", "STRP 0 1 0 _ _ 0;".repeat(9))), (BAD_ORDER, 10));
        assert_eq!(answer("TURN 0; MOST 0 _ _ _ _ 1; LEAS 0 _ _ _ _ 1; STOP"), (BAD_ORDER, 3));
        assert_eq!(answer("TURN 0; TURN 0; STOP"), (BAD_ORDER, 2));
        assert_eq!(answer("LEAS 0 _ _ _ _ 1; TURN 0; STOP"), (BAD_ORDER, 2));
        assert_eq!(answer("STOP; TURN 0; STOP"), (BAD_ORDER, 2));
        assert_eq!(answer("STOP; TURN 16; STOP"), (OUT_OF_LIMITS, 2));
        assert_eq!(answer("TURN 16; STOP"), (OUT_OF_LIMITS, 1));
        assert_eq!(answer("TURN; STOP"), (BAD_SHAPE, 1));
        assert_eq!(answer("TURN 1 _ _ _ _ 0; STOP"), (BAD_SHAPE, 1));
        assert_eq!(answer("TURN 1"), (ENDS_IN_CLAIM, 1));
        assert_eq!(answer("TURN 1; LEAS 0 _ _ _ _ 1; MOST 0 _ _ _ _ 0; STOP"), (EMPTY_START, 4));
        assert_eq!(answer("TURN 1; LEAS 0 _ _ _ _ 1; SETC 0 _ _ _ _ 0; JUMP _ _ _ 0"), (CLAIM_DOES_NOT_FOLLOW, 4));
    }

    #[test]
    fn turn_is_a_claim_line_of_point_0() {
        let text = lines::listing("TURN 1; LEAS 0 _ _ _ _ 1; SETC 0 _ _ _ _ 0; STOP");
        assert_eq!(claim_part(&text, 0), Part { number: 0, place: 0, offset: 0, length: 80 });
        assert_eq!(claim_part(&text, 1), Part { number: 0, place: 0, offset: 120, length: 0 });
        assert_eq!(claim_part(&lines::listing("TURN 1; STOP"), 0).length, 40);
    }

    #[test]
    fn turn_is_set() {
        let mut line = [0; 40];
        let set = |line: &mut [u8], number| set_line(b"TURN", &[1, 0, 0, 0, 0, 0], &[number, 9, 9, 9, 9, 9], 1, line);
        assert_eq!(set(&mut line, 16), Set { number: OUT_OF_LIMITS, place: 1 });
        assert_eq!(set_line(b"TURN", &[1, 1, 0, 0, 0, 0], &[0; 6], 1, &mut line).number, BAD_SHAPE);
        assert_eq!(set_line(b"TURN", &[0; 6], &[0; 6], 1, &mut line).number, BAD_SHAPE);
        assert_eq!(line, [0; 40]);
        assert_eq!(set(&mut line, 15).number, 0);
        assert_eq!(line.to_vec(), lines::listing("TURN 15"));
    }
}

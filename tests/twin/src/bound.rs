//! How many steps a run from point 0 makes at most: refusal 20.

use crate::line::{Claim, Instruction, Operand, BLANK, MAX};
use crate::read::{Listing, Point, MOST_POINTS};
use crate::Answer;
use reference::refusals::WAY_BACK_NOT_COVERED;

/// What one pass over the points finds: the points that JUMPs and branches name, whether some edge goes back, and
/// whether every write of the TURN register makes it smaller.
struct Edges {
    targets: [u64; MOST_POINTS / 64],
    back: bool,
    falls: bool,
}

/// The points times the values that the TURN register can have, or the points alone where no edge goes back.
pub fn bound(listing: &Listing) -> Result<u64, Answer> {
    let points = listing.points;
    // no instruction writes a blank
    let turn = listing.turn.unwrap_or(BLANK);
    let edges = Edges::of(listing, turn);
    if !edges.back {
        return Ok(points.len() as u64);
    }
    for (at, point) in points.iter().enumerate() {
        if goes_back(point, at) && !edges.covers(points, at, turn) {
            return Err(Answer::refused(WAY_BACK_NOT_COVERED, point.line as usize + 1));
        }
    }
    Ok(points.len() as u64 * (greatest(listing.claims(&points[0]), turn) + 1))
}

impl Edges {
    fn of(listing: &Listing, turn: u8) -> Edges {
        let mut edges = Edges { targets: [0; MOST_POINTS / 64], back: false, falls: true };
        for (at, point) in listing.points.iter().enumerate() {
            match point.instruction {
                Instruction::Jump { target } | Instruction::Less { target, .. } | Instruction::Equal { target, .. } => {
                    edges.targets[target as usize / 64] |= 1 << (target % 64);
                    edges.back |= target as usize <= at;
                }
                Instruction::Subtract { d, i, o } if d == turn => {
                    edges.falls &= i == turn && at_least(listing.claims(point), turn, o);
                }
                Instruction::Set { d, .. }
                | Instruction::Copy { d, .. }
                | Instruction::Add { d, .. }
                | Instruction::Multiply { d, .. }
                | Instruction::Divide { d, .. }
                | Instruction::Load { d, .. } => edges.falls &= d != turn,
                Instruction::DivMod { q, r, .. } => edges.falls &= q != turn && r != turn,
                Instruction::Stop | Instruction::Subtract { .. } | Instruction::Store { .. } => {}
            }
        }
        edges
    }

    /// Whether the edge that goes back belongs to a JUMP that is reached only through a SUBW of the TURN register.
    fn covers(&self, points: &[Point], at: usize, turn: u8) -> bool {
        let jump = matches!(points[at].instruction, Instruction::Jump { .. });
        let target = self.targets[at / 64] >> (at % 64) & 1 == 1;
        // before point 0 stands none: the greatest number is no point
        let before = points.get(at.wrapping_sub(1)).map(|point| point.instruction);
        self.falls && jump && !target && matches!(before, Some(Instruction::Subtract { d, .. }) if d == turn)
    }
}

fn goes_back(point: &Point, at: usize) -> bool {
    match point.instruction {
        Instruction::Jump { target } | Instruction::Less { target, .. } | Instruction::Equal { target, .. } => {
            target as usize <= at
        }
        _ => false,
    }
}

/// Whether the operand is a number of at least 1, and the register is claimed to be no smaller.
fn at_least(claims: &[Claim], register: u8, o: Operand) -> bool {
    let Operand::Number(number @ 1..) = o else { return false };
    claims
        .iter()
        .any(|claim| matches!(*claim, Claim::Least { v, value } if v == register && value >= i64::from(number)))
}

/// The greatest value that the claims leave the register.
fn greatest(claims: &[Claim], register: u8) -> u64 {
    let most = |claim: &Claim| match *claim {
        Claim::Most { v, value } if v == register => Some(value as u64),
        _ => None,
    };
    claims.iter().find_map(most).unwrap_or(MAX)
}

#[cfg(test)]
mod tests {
    use super::*;
    use crate::{check, step_bound};
    use lines::listing;
    use reference::refusals::{BAD_ORDER, CLAIM_DOES_NOT_FOLLOW};

    /// Counts register 1 down from at most 9; the JUMP back stands on line 7.
    const COUNTING: &str = "TURN 1; MOST 1 _ _ _ _ 9; SETC 2 _ _ _ _ 0; BEQU _ 1 _ 4 1 0; LEAS 1 _ _ _ _ 1;
                            SUBW 1 1 _ _ 1 1; JUMP _ _ _ 1; STOP;";

    fn bound_of(text: &str) -> Result<u64, Answer> {
        step_bound(&listing(text))
    }

    /// The listing passes, and its bound is refused with the line.
    fn refused_at(text: &str, line: usize) {
        assert_eq!(check(&listing(text)).number, 0, "{text}");
        assert_eq!(bound_of(text), Err(Answer::refused(WAY_BACK_NOT_COVERED, line)), "{text}");
    }

    #[test]
    fn nothing_goes_back() {
        assert_eq!(bound_of("STOP"), Ok(1));
        assert_eq!(bound_of("TURN 0; SETC 0 _ _ _ _ 7; STOP"), Ok(2));
        assert_eq!(bound_of("BLTU _ 0 _ 2 0 1; JUMP _ _ _ 2; JUMP _ _ _ 3; STOP"), Ok(4));
    }

    #[test]
    fn points_times_values() {
        assert_eq!(bound_of(COUNTING), Ok(5 * 10));
        let unclaimed = COUNTING.replace("MOST 1", "MOST 0");
        assert_eq!(bound_of(&unclaimed), Ok(5 << 32));
        assert_eq!(bound_of(&format!("{unclaimed} {}", "STOP;".repeat(507))), Ok(1 << 41));
        assert_eq!(bound_of(&COUNTING.replace("MOST 1 _ _ _ _ 9;", "LEAS 1 _ _ _ _ 0; MOST 1 _ _ _ _ 0;")), Ok(5));
    }

    #[test]
    fn the_first_edge_that_is_not_covered() {
        refused_at("JUMP _ _ _ 0", 1);
        refused_at("TURN 1; JUMP _ _ _ 0", 2);
        refused_at("STOP; BEQU _ 0 _ 1 1 3; JUMP _ _ _ 0", 2);
        refused_at(&COUNTING.replace("TURN 1;", ""), 6);
        refused_at(&COUNTING.replace("TURN 1", "TURN 2"), 7);
        refused_at(&format!("{COUNTING} JUMP _ _ _ 5; JUMP _ _ _ 6"), 9);
    }

    #[test]
    fn what_leads_to_the_jump() {
        let own = COUNTING.replace("JUMP _ _ _ 1", "JUMP _ _ _ 3");
        let over = COUNTING.replace("SETC 2 _ _ _ _ 0", "BEQU _ 2 _ 3 1 0");
        let out = COUNTING.replace("BEQU _ 1 _ 4 1 0", "BEQU _ 1 _ 3 1 0");
        let branch = COUNTING.replace("JUMP _ _ _ 1", "BLTU _ 2 _ 1 1 5");
        for text in [own, over, out, branch] {
            refused_at(&text, 7);
        }
        let longer = COUNTING.replace("BEQU _ 1 _ 4 1 0", "BEQU _ 1 _ 5 1 0");
        for between in ["SUBW 2 1 _ _ 1 1", "SUBW 2 2 _ _ 1 1", "COPY 2 1", "STOP", "JUMP _ _ _ 5"] {
            refused_at(&longer.replace("JUMP _ _ _ 1", &format!("{between}; JUMP _ _ _ 1")), 8);
        }
    }

    #[test]
    fn every_write_of_the_register_makes_it_smaller() {
        let unfit = [
            "SETC 1 _ _ _ _ 0",
            "COPY 1 1",
            "ADDW 1 1 _ _ 1 0",
            "MULW 1 1 _ _ 1 1",
            "DIVF 1 1 _ _ 1 2",
            "DIVM 1 1 2 _ 1 2",
            "DIVM 2 1 1 _ 1 2",
            "LEAS 16 _ _ _ _ 1; MOST 2 _ _ _ _ 0; LOAD 1 1 0 1 2 0",
            "SUBW 1 1 _ _ 1 1",
            "LEAS 1 _ _ _ _ 4; SUBW 1 1 _ _ 1 5",
            "LEAS 2 _ _ _ _ 5; SUBW 1 1 _ _ 1 5",
            "LEAS 1 _ _ _ _ 5; SUBW 1 1 _ _ 1 0",
            "LEAS 1 _ _ _ _ 5; MOST 2 _ _ _ _ 1; SUBW 1 1 _ _ 0 2",
            "LEAS 1 _ _ _ _ 5; LEAS 2 _ _ _ _ 5; SUBW 1 2 _ _ 1 1",
        ];
        for write in unfit {
            refused_at(&format!("{COUNTING} {write}; STOP"), 7);
        }
        let fit = [
            "LEAS 1 _ _ _ _ 5; SUBW 1 1 _ _ 1 5",
            "LEAS 1 _ _ _ _ 4294967295; MOST 1 _ _ _ _ 0; SUBW 1 1 _ _ 1 4294967295",
            "SUBW 2 1 _ _ 1 0",
            "DIVM 2 1 3 _ 1 1",
            "LEAS 17 _ _ _ _ 1; MOST 2 _ _ _ _ 0; STOR 1 1 _ 1 2 0",
        ];
        for write in fit {
            assert_eq!(bound_of(&format!("{COUNTING} {write}; STOP")), Ok(7 * 10), "{write}");
        }
    }

    #[test]
    fn a_write_at_point_0() {
        let text = COUNTING.replace("SETC 2 _ _ _ _ 0", "SUBW 1 1 _ _ 1 3");
        refused_at(&text, 7);
        assert_eq!(bound_of(&text.replace("TURN 1;", "TURN 1; LEAS 1 _ _ _ _ 3;")), Ok(5 * 10));
    }

    #[test]
    fn every_other_test_comes_first() {
        let text = "TURN 1; JUMP _ _ _ 1; LEAS 2 _ _ _ _ 1; JUMP _ _ _ 1";
        let refused = Answer { number: CLAIM_DOES_NOT_FOLLOW, place: 2, second: 3, points: 0 };
        assert_eq!(bound_of(text), Err(refused));
        assert_eq!(bound_of("JUMP _ _ _ 0; TURN 1; STOP"), Err(Answer::refused(BAD_ORDER, 2)));
    }
}

//! What every point owes: refusals 12 to 14.

use crate::facts::{Facts, Stripe};
use crate::follow::follows;
use crate::line::{Claim, Instruction, Operand, BLANK, RESULTS_SIZE};
use crate::read::Listing;
use crate::Answer;
use reference::refusals::{ACCESS_MAY_LEAVE, CLAIM_DOES_NOT_FOLLOW, DIVISOR_MAY_BE_ZERO};

pub fn walk(listing: &Listing) -> Result<(), Answer> {
    (0..listing.points.len()).try_for_each(|at| listing.point(at))
}

impl Listing<'_> {
    fn point(&self, at: usize) -> Result<(), Answer> {
        let point = &self.points[at];
        if matches!(point.instruction, Instruction::Stop) {
            return Ok(());
        }
        let mut facts = Facts::at(self.claims(point));
        // an empty point owes nothing
        if facts.impossible() {
            return Ok(());
        }
        match point.instruction {
            Instruction::Jump { target } => self.edge(at, target as usize, &facts),
            Instruction::Less { i, target, o } => {
                let mut otherwise = facts;
                otherwise.not_less(i, o);
                self.edge(at, at + 1, &otherwise)?;
                facts.less(i, o);
                self.edge(at, target as usize, &facts)
            }
            Instruction::Equal { i, target, o } => {
                let mut otherwise = facts;
                otherwise.not_equal(i, o);
                self.edge(at, at + 1, &otherwise)?;
                facts.equal(i, o);
                self.edge(at, target as usize, &facts)
            }
            _ => self.straight(at, &mut facts),
        }
    }

    /// An instruction whose one successor is the next point.
    fn straight(&self, at: usize, facts: &mut Facts) -> Result<(), Answer> {
        let refused = |number| Err(Answer::refused(number, self.points[at].line as usize + 1));
        match self.points[at].instruction {
            Instruction::Set { d, number } => facts.write(d, i64::from(number), i64::from(number)),
            Instruction::Copy { d, i } => facts.copy(d, i),
            Instruction::Add { d, i, o } => facts.add(d, i, o),
            Instruction::Subtract { d, i, o } => facts.subtract(d, i, o),
            Instruction::Multiply { d, i, o } => facts.multiply(d, i, o),
            Instruction::Divide { o, .. } | Instruction::DivMod { o, .. } if !divisor_is_safe(facts, o) => {
                return refused(DIVISOR_MAY_BE_ZERO);
            }
            Instruction::Divide { d, i, o } => facts.divide(d, i, o),
            Instruction::Load { d, width, size, scale, i, offset } => {
                let end = i64::from(offset) + i64::from(width);
                if !access_is_safe(facts, size, scale, i, end) {
                    return refused(ACCESS_MAY_LEAVE);
                }
                facts.write(d, 0, (1i64 << (8 * u32::from(width))) - 1);
            }
            Instruction::Store { width, scale, i, offset, .. } => {
                let end = i64::from(offset) + i64::from(width);
                if !access_is_safe(facts, RESULTS_SIZE, scale, i, end) {
                    return refused(ACCESS_MAY_LEAVE);
                }
            }
            Instruction::DivMod { q, i, r, o } => facts.div_mod(q, i, r, o),
            _ => {}
        }
        self.edge(at, at + 1, facts)
    }

    /// Whether every claim at `to` follows from the facts along the edge.
    fn edge(&self, from: usize, to: usize, facts: &Facts) -> Result<(), Answer> {
        let target = &self.points[to];
        let claims = self.claims(target);
        if claims.is_empty() || facts.impossible() {
            return Ok(());
        }
        let mut links = None;
        for (at, claim) in claims.iter().enumerate() {
            let shown = match *claim {
                Claim::Least { v, value } => facts.lo[v as usize] >= value,
                Claim::Most { v, value } => facts.hi[v as usize] <= value,
                Claim::Stripe { x, a, y, z, b } => follows(facts, &mut links, &Stripe { x, a, y, z, b }),
            };
            if !shown {
                let second = target.line - target.claims + at as u16 + 1;
                let place = u64::from(self.points[from].line) + 1;
                return Err(Answer { number: CLAIM_DOES_NOT_FOLLOW, place, second: u64::from(second), points: 0 });
            }
        }
        Ok(())
    }
}

fn divisor_is_safe(facts: &Facts, o: Operand) -> bool {
    facts.ends(o).0 >= 1
}

/// scale × i + end ≤ size.
fn access_is_safe(facts: &Facts, size: u8, scale: u16, i: u8, end: i64) -> bool {
    let goal = Stripe { x: size, a: scale, y: i, z: BLANK, b: end };
    follows(facts, &mut None, &goal)
}

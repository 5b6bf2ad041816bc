//! A listing while it is being made: points with claims that can be added and dropped.

use lines::line;
use reference::{Arithmetic, Claim, Comparison, Instruction, Known, Listing, Operand, Point, Stripe, Whole};

const MOST_STRIPES: usize = 8;

#[derive(Clone, Debug)]
pub struct DraftPoint {
    pub claims: Vec<Claim>,
    pub instruction: Instruction,
}

/// Points, and the register of a TURN line in front of them if there is one.
#[derive(Clone, Debug, Default)]
pub struct Draft {
    pub turn: Option<usize>,
    pub points: Vec<DraftPoint>,
}

impl DraftPoint {
    pub fn bare(instruction: Instruction) -> DraftPoint {
        DraftPoint { claims: Vec::new(), instruction }
    }

    /// Puts the claim at its place. A second LEAS or MOST of a variable and a ninth stripe are left out.
    pub fn claim(&mut self, claim: Claim) {
        let stripes = self.claims.iter().filter(|claim| matches!(claim, Claim::Stripe(_))).count();
        if matches!(claim, Claim::Stripe(_)) {
            if stripes < MOST_STRIPES {
                self.claims.push(claim);
            }
            return;
        }
        if let Err(at) = self.claims.binary_search_by_key(&rank(&claim), rank) {
            self.claims.insert(at, claim);
        }
    }

    pub fn known(&self) -> Known {
        let lines = self.claims.iter().map(|&claim| reference::ClaimLine { claim, line: 0 }).collect();
        Known::at(&Point { instruction: self.instruction, line: 0, claims: lines })
    }
}

/// LEAS lines by variable, then MOST lines by variable, then all stripes.
fn rank(claim: &Claim) -> (u8, usize) {
    match *claim {
        Claim::Least { v, .. } => (0, v),
        Claim::Most { v, .. } => (1, v),
        Claim::Stripe(_) => (2, 0),
    }
}

impl Draft {
    pub fn push(&mut self, instruction: Instruction) -> &mut DraftPoint {
        self.points.push(DraftPoint::bare(instruction));
        self.points.last_mut().expect("one was pushed")
    }

    pub fn text(&self) -> Vec<u8> {
        let mut text: Vec<u8> = self.turn.iter().flat_map(|&register| turn_line(register)).collect();
        for point in &self.points {
            point.claims.iter().for_each(|claim| text.extend(claim_line(claim)));
            text.extend(instruction_line(&point.instruction));
        }
        text
    }

    /// The point of a line, counted from 1, and the claim's index there; none for the instruction's own line. A TURN line
    /// is no point's here.
    pub fn at_line(&self, line: u64) -> (usize, Option<usize>) {
        let mut rest = line as usize - 1 - usize::from(self.turn.is_some());
        for (index, point) in self.points.iter().enumerate() {
            if rest < point.claims.len() {
                return (index, Some(rest));
            }
            if rest == point.claims.len() {
                return (index, None);
            }
            rest -= point.claims.len() + 1;
        }
        panic!("the draft has no line {line}");
    }
}

/// The draft of a listing that can be read.
pub fn draft_of(listing: &Listing) -> Draft {
    let point = |point: &Point| DraftPoint {
        claims: point.claims.iter().map(|line| line.claim).collect(),
        instruction: point.instruction,
    };
    Draft { turn: listing.turn, points: listing.points.iter().map(point).collect() }
}

pub fn turn_line(register: usize) -> [u8; 40] {
    line("TURN", [Some(register as Whole), None, None, None, None, None])
}

pub fn claim_line(claim: &Claim) -> [u8; 40] {
    let variable = |v: usize| Some(v as Whole);
    match *claim {
        Claim::Least { v, value } => line("LEAS", [variable(v), None, None, None, None, Some(value)]),
        Claim::Most { v, value } => line("MOST", [variable(v), None, None, None, None, Some(value)]),
        Claim::Stripe(Stripe { x, a, y, z, b }) => {
            line("STRP", [variable(x), Some(a), variable(y), z.and_then(variable), None, Some(b)])
        }
    }
}

pub fn instruction_line(instruction: &Instruction) -> [u8; 40] {
    let variable = |v: usize| Some(v as Whole);
    match *instruction {
        Instruction::Stop => line("STOP", [None; 6]),
        Instruction::Set { d, number } => line("SETC", [variable(d), None, None, None, None, Some(number)]),
        Instruction::Copy { d, i } => line("COPY", [variable(d), variable(i), None, None, None, None]),
        Instruction::Compute { kind, d, i, o } => {
            let word = match kind {
                Arithmetic::Add => "ADDW",
                Arithmetic::Subtract => "SUBW",
                Arithmetic::Multiply => "MULW",
                Arithmetic::Divide => "DIVF",
            };
            let (choice, value) = operand(o);
            line(word, [variable(d), variable(i), None, None, choice, value])
        }
        Instruction::DivMod { q, i, r, o } => {
            let (choice, value) = operand(o);
            line("DIVM", [variable(q), variable(i), variable(r), None, choice, value])
        }
        Instruction::Load { d, width, table, scale, i, offset } => {
            line("LOAD", [variable(d), Some(width), Some(table), Some(scale), variable(i), Some(offset)])
        }
        Instruction::Store { stored, width, scale, i, offset } => {
            line("STOR", [variable(stored), Some(width), None, Some(scale), variable(i), Some(offset)])
        }
        Instruction::Jump { target } => line("JUMP", [None, None, None, variable(target), None, None]),
        Instruction::Branch { kind, i, target, o } => {
            let word = if kind == Comparison::Less { "BLTU" } else { "BEQU" };
            let (choice, value) = operand(o);
            line(word, [None, variable(i), None, variable(target), choice, value])
        }
    }
}

fn operand(o: Operand) -> (Option<Whole>, Option<Whole>) {
    match o {
        Operand::Variable(v) => (Some(0), Some(v as Whole)),
        Operand::Number(number) => (Some(1), Some(number)),
    }
}

#[cfg(test)]
mod tests {
    use super::*;

    #[test]
    fn a_draft_of_a_listing_has_its_text() {
        let text = lines::listing(
            "TURN 7; LEAS 16 _ _ _ _ 4; MOST 1 _ _ _ _ 0; STRP 17 4 1 _ _ -3; LOAD 2 2 0 1 1 0; SETC 1 _ _ _ _ 7;
             COPY 3 17; MULW 3 4 _ _ 0 2; DIVM 4 17 5 _ 1 6; BEQU _ 3 _ 1 1 9; STRP 0 1 2 3 _ 8; STOR 17 4 _ 255 0 65535; JUMP _ _ _ 0",
        );
        assert_eq!(draft_of(&reference::read(&text).unwrap()).text(), text);
    }

    #[test]
    fn claims_take_their_places() {
        let mut point = DraftPoint::bare(Instruction::Stop);
        point.claim(Claim::Stripe(Stripe { x: 0, a: 1, y: 0, z: None, b: 0 }));
        point.claim(Claim::Most { v: 3, value: 5 });
        point.claim(Claim::Least { v: 4, value: 0 });
        point.claim(Claim::Least { v: 2, value: 0 });
        point.claim(Claim::Least { v: 2, value: 1 });
        let draft = Draft { turn: None, points: vec![point] };
        assert_eq!(reference::check(&draft.text()).points, 1);
        assert_eq!(draft.at_line(3), (0, Some(2)));
        assert_eq!(draft.at_line(5), (0, None));
        let draft = Draft { turn: Some(3), ..draft };
        assert_eq!(reference::check(&draft.text()).points, 1);
        assert_eq!(draft.at_line(4), (0, Some(2)));
        assert_eq!(draft.at_line(6), (0, None));
    }
}

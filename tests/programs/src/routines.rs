//! The routines that the tests run: each as a call that the reference can make too.

use crate::folder::root;
use lines::listing;
use reference::State;
use std::fs;
use trials::runs::Call;

/// Steps in one round of the counting routine.
pub const ROUND: u32 = 3;

/// A number of trays, each with what was sown and what came up, and one result byte more than needed.
pub fn viability_of(records: &[(u16, u16)], budget: u32) -> Call {
    let trays = records.iter().flat_map(|(sown, up)| [sown.to_le_bytes(), up.to_le_bytes()].concat()).collect();
    let mut state = State { point: 0, registers: [0; 16] };
    state.registers[1] = records.len() as u32;
    let listing = fs::read(root().join("examples/viability.lst")).expect("the example is there");
    Call { listing, state, trays, results: vec![7; records.len() + 1], budget }
}

/// Four trays: an ordinary one, a bare control tray, a full one, and one with more sprouts than seeds.
pub fn viability(budget: u32) -> Call {
    viability_of(&[(300, 200), (0, 0), (60_000, 60_000), (10, 11)], budget)
}

/// Adds 1 to register 0 in each round and stores it at the start of the results, so that every run changes both files.
pub fn counting(rounds: u32) -> Call {
    let claims = "LEAS 17 _ _ _ _ 4; MOST 1 _ _ _ _ 0";
    let listing = listing(&format!("{claims}; ADDW 0 0 _ _ 1 1; {claims}; STOR 0 4 _ 1 1 0; {claims}; JUMP _ _ _ 0"));
    let results = [vec![0; 4], vec![9; 2_996]].concat();
    let state = State { point: 0, registers: [0; 16] };
    Call { listing, state, trays: vec![1, 2, 3], results, budget: rounds * ROUND }
}

/// The counting routine with the greatest budget: it goes on for longer than any test waits.
pub fn endless() -> Call {
    Call { budget: u32::MAX, ..counting(0) }
}

/// The call that takes up where this one halted, by the reference.
pub fn next(call: &Call) -> Call {
    let after = call.by_reference();
    Call { state: after.run.state, results: after.results, ..call.clone() }
}

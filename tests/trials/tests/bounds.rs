//! The families of listings whose bound is asked for hold what they promise: routines that are bounded, both answers
//! beside each thing that covering asks, and every way of writing the TURN register.

use reference::refusals::WAY_BACK_NOT_COVERED;
use reference::{read, Instruction, Operand};
use std::collections::BTreeMap;
use trials::bounds::{bound_families, bound_of_reference, Bound};

/// Debug builds look at a share of the batches, so that a plain `cargo test` stays quick.
const SHARE: u64 = if cfg!(debug_assertions) { 20 } else { 1 };

/// Every listing of the first family with this part in its name, and its bound.
fn bounds_of(part: &str) -> impl Iterator<Item = (Vec<u8>, Bound)> {
    let family = bound_families().into_iter().find(|family| family.name.contains(part)).expect("the family exists");
    let family = family.thinned(SHARE);
    let listings = (0..family.batches).flat_map(move |batch| family.batch(batch));
    listings.map(|listing| {
        let bound = bound_of_reference(&listing);
        (listing, bound)
    })
}

#[test]
fn loops_are_bounded() {
    for part in ["nothing goes back", "loops that count down", "need nearly all"] {
        assert!(bounds_of(part).all(|(_, bound)| bound.number == 0), "{part}");
    }
}

#[test]
fn ways_back_are_covered_and_not() {
    for part in [
        "just before a way back",
        "targets at and beside",
        "everything that writes",
        "what is taken off",
        "other registers and operands",
        "branches that go back",
        "several ways back",
        "that nothing reaches",
        "random blocks",
        "at empty points",
    ] {
        let numbers: Vec<u64> = bounds_of(part).map(|(_, bound)| bound.number).collect();
        for (number, least) in [(0, 300), (WAY_BACK_NOT_COVERED, 1_000)] {
            let times = numbers.iter().filter(|&&other| other == number).count() as u64;
            assert!(times * SHARE >= least, "{part}: {times} times {number}");
        }
    }
}

/// Bounds of one point and of one round, and bounds that no single run can have as its budget.
#[test]
fn bounds_are_small_and_large() {
    let bounds: Vec<u64> = bounds_of("any greatest value").map(|(_, bound)| bound.bound).collect();
    for (name, kind) in [
        ("small", (|bound| (1..100).contains(&bound)) as fn(u64) -> bool),
        ("of 32 bits", |bound| (1 << 16..1 << 32).contains(&bound)),
        ("larger", |bound| bound >= 1 << 32),
    ] {
        let times = bounds.iter().filter(|&&bound| kind(bound)).count() as u64;
        println!("{times} bounds are {name}");
        assert!(times * SHARE >= 200, "{name}: {times}");
    }
}

/// How an instruction writes the TURN register.
fn writing(instruction: &Instruction, turn: usize) -> Option<String> {
    if !instruction.written().contains(&turn) {
        return None;
    }
    Some(match *instruction {
        Instruction::Compute { kind, i, o, .. } => {
            let number = matches!(o, Operand::Number(_));
            format!(
                "{kind:?}{}{}",
                if i == turn { " of itself" } else { "" },
                if number { "" } else { " by a variable" }
            )
        }
        Instruction::Copy { i, .. } => format!("Copy{}", if i == turn { " of itself" } else { "" }),
        Instruction::DivMod { q, .. } => format!("DivMod {}", if q == turn { "quotient" } else { "remainder" }),
        Instruction::Set { .. } => "Set".to_string(),
        Instruction::Load { .. } => "Load".to_string(),
        _ => unreachable!("it writes"),
    })
}

/// Each in listings that pass and have no bound.
#[test]
fn the_register_is_written_in_every_way() {
    let mut counts = BTreeMap::new();
    for (listing, _) in bounds_of("everything that writes").filter(|(_, bound)| bound.number == WAY_BACK_NOT_COVERED) {
        let listing = read(&listing).expect("20 comes after reading");
        let Some(turn) = listing.turn else { continue };
        for point in &listing.points {
            writing(&point.instruction, turn).into_iter().for_each(|way| *counts.entry(way).or_insert(0) += 1);
        }
    }
    println!("{counts:?}");
    assert_eq!(counts.len(), 12, "{counts:?}");
    assert!(counts.values().all(|times: &u64| times * SHARE >= 40), "{counts:?}");
}

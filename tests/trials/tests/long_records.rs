//! The families of long records hold what they promise: the answers that they aim at, bounds at every end of the
//! limits, and runs that access long records by every width in both tables.

use reference::{
    check, edges_within, meets, read, step, Instruction, Known, Limits, State, Step, Whole, REGISTERS, RESULTS_SIZE,
    TRAYS_SIZE,
};
use std::collections::BTreeMap;
use trials::all;
use trials::runs::{all_runs, Call};

/// Debug builds look at a share of the batches, so that a plain `cargo test` stays quick.
const SHARE: u64 = if cfg!(debug_assertions) { 20 } else { 1 };

fn listings_of(name: &str) -> impl Iterator<Item = Vec<u8>> {
    let family = all().into_iter().find(|family| family.name == name).expect("the family exists").thinned(SHARE);
    (0..family.batches).flat_map(move |batch| family.batch(batch))
}

/// The answers that a family aims at.
type Aim = (&'static str, &'static [u64]);

const SHIFTED: &str = "bounds shifted to their ends and past them";

/// Each answer at least once in fifty listings.
#[test]
fn every_family_gives_the_answers_that_it_aims_at() {
    let aims: [Aim; 9] = [
        ("stripes of any scale", &[0, 5, 14]),
        ("products by factors at and beside a scale", &[0, 5, 14]),
        ("accesses of any scale at the end of a table", &[0, 5, 13]),
        ("addresses that a narrow number would wrap", &[0, 11, 13]),
        ("bounds written at and beside their ends", &[0, 5, 14]),
        (SHIFTED, &[0, 14]),
        ("goals that links carry beyond the limits", &[0, 13, 14]),
        ("routines over long records", &[0]),
        ("routines over long records, one field nudged", &[0, 4, 5, 14]),
    ];
    for (name, aim) in aims {
        let numbers: Vec<u64> = listings_of(name).map(|listing| check(&listing).number).collect();
        for number in aim {
            let times = numbers.iter().filter(|&other| other == number).count();
            assert!(times * 50 >= numbers.len(), "{name}: {times} times {number} in {}", numbers.len());
        }
    }
}

#[test]
fn bounds_are_shifted_to_every_end_and_past_it() {
    let boundless = Limits { bound: 1 << 100, ..Limits::TODAY };
    let mut counts = BTreeMap::new();
    for listing in listings_of(SHIFTED) {
        let point = &read(&listing).expect("they are read").points[0];
        let before = Known::at(point);
        let after = edges_within(boundless, 0, &point.instruction, &before).remove(0).known.expect("it is possible");
        let moved = before.stripes.iter().zip(&after.stripes).filter(|(before, after)| before.b != after.b);
        moved.for_each(|(_, after)| *counts.entry(after.b).or_insert(0) += 1);
    }
    for end in [Limits::TODAY.bound, Limits::EARLIER.bound] {
        for bound in [end - 1, end, end + 1, 1 - end, -end, -end - 1] {
            let times = counts.get(&bound).copied().unwrap_or(0);
            println!("{times} times {bound}");
            assert!(times * SHARE >= 250, "{times} times {bound}");
        }
    }
}

/// An access that a run makes: the word, the table, the width, and whether it ends with its table.
type Access = (&'static str, Whole, Whole, bool);

/// The accesses of records longer than 255 bytes that the run makes.
fn accesses(call: &Call) -> Vec<Access> {
    let Ok(listing) = read(&call.listing) else { return vec![] };
    let (mut state, mut results, mut made) = (call.state, call.results.clone(), Vec::new());
    if check(&call.listing).number != 0 || !meets(&listing, &state, &call.trays, &results) {
        return made;
    }
    for _ in 0..call.budget {
        made.extend(access(call, &listing.points[state.point as usize].instruction, &state));
        let Step::Moved(next) = step(&listing, &state, &call.trays, &mut results) else { break };
        state = next;
    }
    made
}

fn access(call: &Call, instruction: &Instruction, state: &State) -> Option<Access> {
    let (word, table, width, scale, i, offset) = match *instruction {
        Instruction::Load { width, table, scale, i, offset, .. } => ("LOAD", table, width, scale, i, offset),
        Instruction::Store { width, scale, i, offset, .. } => ("STOR", 1, width, scale, i, offset),
        _ => return None,
    };
    let sizes = [call.trays.len() as Whole, call.results.len() as Whole];
    let index = match i {
        0..REGISTERS => Whole::from(state.registers[i]),
        TRAYS_SIZE..=RESULTS_SIZE => sizes[i - TRAYS_SIZE],
        _ => unreachable!("there are 18 variables"),
    };
    let long = scale > Limits::EARLIER.scale && index > 0;
    long.then(|| (word, table, width, scale * index + offset + width == sizes[table as usize]))
}

/// Loads of either table and stores, by three widths, at the end of the table and before it.
#[test]
fn runs_access_long_records_in_every_way() {
    for part in ["long records walked by a loop", "one access of a long record"] {
        let family = all_runs().into_iter().find(|family| family.name == part).expect("the family exists");
        let mut counts = BTreeMap::new();
        for batch in 0..family.batches {
            let trials = family.batch(&mut family.random(batch));
            trials
                .iter()
                .flat_map(|trial| accesses(&trial.call))
                .for_each(|made| *counts.entry(made).or_insert(0) += 1);
        }
        println!("{part}: {counts:?}");
        assert_eq!(counts.len(), 3 * 3 * 2, "{part}: {counts:?}");
        assert!(counts.values().all(|&times| times >= 15), "{part}: {counts:?}");
    }
}

//! The benchmark's twin runs as the reference does, on every run of every family.

use reference::{Outcome, Refusal, Run, State};
use trials::runs::{all_runs, compare_runs, After, Call, RunTally};

/// Debug builds look at a share of the batches, so that a plain `cargo test` stays quick.
const SHARE: u64 = if cfg!(debug_assertions) { 40 } else { 4 };

fn of_twin(call: &Call) -> After {
    let mut results = call.results.clone();
    let state = twin::State { point: call.state.point as usize, registers: call.state.registers };
    let twin::Outcome { report, state, steps } =
        twin::run(&call.listing, state, &call.trays, &mut results, call.budget);
    let outcome = match report {
        twin::Report::Stopped => Outcome::Stopped,
        twin::Report::Paused => Outcome::Paused,
        twin::Report::Refused(twin::Answer { number, place, second, .. }) => {
            Outcome::Refused(Refusal { number, place, second })
        }
    };
    let state = State { point: state.point as u64, registers: state.registers };
    let run = Run { outcome, state, steps: u64::from(steps) };
    After { run, listing: call.listing.clone(), trays: call.trays.clone(), results }
}

#[test]
fn the_twin_runs_alike() {
    let mut whole = RunTally::default();
    println!("{}", RunTally::heading());
    for family in all_runs() {
        let name = family.name;
        match compare_runs(&family.thinned(SHARE), &[("the twin", &of_twin)]) {
            Ok(tally) => {
                println!("{} {name}", tally.row());
                whole.add(&tally);
            }
            Err(difference) => panic!("{difference}"),
        }
    }
    println!("{} all {} runs, {} steps", whole.row(), whole.total(), whole.steps);
    assert!(whole.total() * SHARE >= 400_000, "{} runs", whole.total());
    assert_eq!(whole.rare(), Vec::<String>::new());
}

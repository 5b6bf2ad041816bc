//! Compares the proved runner, through both of its entries, with the reference on every family of runs. Counted are:
//! each family, and that no outcome is rare.

use reference::{Outcome, Refusal, Run, State};
use std::process::ExitCode;
use trials::runs::{all_runs, compare_runs, After, Call, RunTally};
use trials::Count;

fn main() -> ExitCode {
    let mut count = Count::default();
    compare_families(&mut count);
    println!("counted: each family of runs, and once that no outcome is rare");
    count.finish()
}

fn compare_families(count: &mut Count) {
    let mut whole = RunTally::default();
    println!("{}", RunTally::heading());
    for family in all_runs() {
        let outcome = compare_runs(&family, &[("run", &by_value), ("run_in_place", &in_place)]).map(|tally| {
            println!("{} {}", tally.row(), family.name);
            whole.add(&tally);
        });
        count.test(outcome.map_err(|difference| difference.to_string()));
    }
    println!("{} all {} runs, {} steps, each run through both entries", whole.row(), whole.total(), whole.steps);
    let rare = whole.rare();
    count.test(if rare.is_empty() { Ok(()) } else { Err(format!("rarer than 1 in 1,000: {rare:?}")) });
}

fn lent(state: &State) -> archive::State {
    archive::State { point: state.point as usize, registers: state.registers }
}

fn handed_back(report: archive::Report, state: &archive::State, steps: u64) -> Run {
    let outcome = match report {
        archive::Report::Stopped => Outcome::Stopped,
        archive::Report::Paused => Outcome::Paused,
        archive::Report::Refused { number, place, second } => Outcome::Refused(Refusal { number, place, second }),
    };
    Run { outcome, state: State { point: state.point as u64, registers: state.registers }, steps }
}

fn by_value(call: &Call) -> After {
    let (listing, trays, mut results) = (call.listing.clone(), call.trays.clone(), call.results.clone());
    let ran = archive::run(&listing, lent(&call.state), &trays, &mut results, call.budget);
    After { run: handed_back(ran.report, &ran.state, ran.steps), listing, trays, results }
}

fn in_place(call: &Call) -> After {
    let (listing, trays, mut results) = (call.listing.clone(), call.trays.clone(), call.results.clone());
    let mut state = lent(&call.state);
    let (report, steps) = archive::run_in_place(&listing, &mut state, &trays, &mut results, call.budget);
    After { run: handed_back(report, &state, steps), listing, trays, results }
}

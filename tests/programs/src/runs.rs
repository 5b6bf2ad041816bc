//! Runs over files: taken up again, from the families of the comparison, and refused.

use crate::expect::{agrees, ensure, Test};
use crate::folder::Folder;
use crate::routines::viability;
use reference::Outcome;
use trials::runs::{all_runs, Call};

/// Runs of each family that go through files, and their greatest budget.
const RUNS_OF_EACH: usize = 8;
const BUDGET: u32 = 100_000;
/// A state file has no point from here on.
const POINTS: u64 = 512;

pub fn tests() -> Vec<Test> {
    vec![
        ("the viability routine paused and taken up again", pieces),
        ("runs of the families through files", families),
        ("refusals change no file", refusals),
    ]
}

fn pieces() -> Result<(), String> {
    let folder = Folder::new("pieces");
    let mut call = viability(0);
    for budget in [0, 1, 5, 0, 9, 3, 1000, 7, u32::MAX] {
        call.budget = budget;
        let run = agrees(&folder, &call)?;
        call.state = run.state;
        call.results = folder.get("results");
    }
    ensure(call.results == [67, 0, 100, 255, 7], || format!("results {:?}", call.results))
}

/// The first trials of every family whose states a file can hold.
fn families() -> Result<(), String> {
    let folder = Folder::new("families");
    for family in all_runs() {
        let calls = (0..family.batches).flat_map(|batch| family.batch(&mut family.random(batch)));
        let fits = |call: &Call| call.state.point < POINTS && call.budget < BUDGET;
        for call in calls.map(|trial| trial.call).filter(fits).take(RUNS_OF_EACH) {
            agrees(&folder, &call)?;
        }
    }
    Ok(())
}

fn refusals() -> Result<(), String> {
    let folder = Folder::new("refusals");
    let call = viability(10);
    let mut missed = call.clone();
    missed.state.registers[1] = 5;
    let mut no_point = call.clone();
    no_point.state.point = 16;
    let turned_back = call.with_listing(&lines::listing("JUMP _ _ _ 1; LEAS 0 _ _ _ _ 1; STOP"));
    let calls = [
        (17, missed),
        (16, no_point),
        (15, Call { trays: vec![1; 65_537], ..call.clone() }),
        (15, Call { results: vec![1; 70_000], ..call.clone() }),
        (14, turned_back),
        (1, call.with_listing(&[])),
        (1, call.with_listing(&lines::listing("STOP").repeat(1639))),
    ];
    for (number, call) in calls {
        match agrees(&folder, &call)?.outcome {
            Outcome::Refused(refusal) if refusal.number == number => {}
            other => return Err(format!("{other:?} in place of {number}")),
        }
    }
    Ok(())
}

//! Listings that pass keep their word: from a state that its point admits, no step is the error
//! state, every state reached meets the claims of its point, and none stands at an empty point.

use reference::{check, meets, read, run, step, Known, Listing, Outcome, State, Step, RESULTS_SIZE, TRAYS_SIZE};
use trials::all;
use trials::random::Random;
use trials::runs::{all_runs, Call};

const SHARE: u64 = if cfg!(debug_assertions) { 50 } else { 2 };
const TRIES: usize = 12;
const STEPS: usize = 60;

struct Start {
    state: State,
    trays: Vec<u8>,
    results: Vec<u8>,
}

/// A state with tables that meet the claims of a random point, if a few tries find one.
fn start(random: &mut Random, listing: &Listing) -> Option<Start> {
    for _ in 0..TRIES {
        let point = random.below(listing.points.len());
        let known = Known::at(&listing.points[point]);
        if known.has_empty_range() {
            continue;
        }
        let mut value = |v: usize| {
            let range = known.ranges[v];
            let near = random.between(0, (range.hi - range.lo).min(40));
            random.pick(&[range.lo, range.lo + near, range.lo + near, range.hi, range.hi - near])
        };
        let (trays, results) = (value(TRAYS_SIZE) as usize, value(RESULTS_SIZE) as usize);
        let registers = std::array::from_fn(|v| value(v) as u32);
        let trays: Vec<u8> = (0..trays).map(|at| (at * 37 % 251) as u8).collect();
        let start = Start { state: State { point: point as u64, registers }, trays, results: vec![3; results] };
        if meets(listing, &start.state, &start.trays, &start.results) {
            return Some(start);
        }
    }
    None
}

/// Steps from the start; answers how many steps were made.
fn follow(listing: &Listing, mut start: Start) -> usize {
    for made in 0..STEPS {
        match step(listing, &start.state, &start.trays, &mut start.results) {
            Step::Moved(next) => start.state = next,
            Step::Stopped => return made,
            Step::Error => panic!("the error state at point {}", start.state.point),
        }
        let met = meets(listing, &start.state, &start.trays, &start.results);
        assert!(met, "claims not met at point {}", start.state.point);
    }
    STEPS
}

#[test]
fn passed_listings_keep_their_claims() {
    let mut random = Random::new(77);
    let (mut starts, mut steps) = (0, 0);
    for family in all() {
        let family = family.thinned(SHARE);
        for batch in 0..family.batches {
            for text in family.batch(batch) {
                if check(&text).number != 0 {
                    continue;
                }
                let listing = read(&text).expect("it passed");
                if let Some(start) = start(&mut random, &listing) {
                    starts += 1;
                    steps += follow(&listing, start);
                }
            }
        }
    }
    println!("{starts} starts, {steps} steps");
    assert!(starts as u64 * SHARE > 30_000, "{starts} starts");
}

/// The states of accepted runs of listings with empty points, and how many of these runs there were.
#[derive(Default)]
struct LookedAt {
    runs: u64,
    states: u64,
}

/// A list of runs of one step each, over tables whose bytes are other ones in every run.
fn never_at_an_empty_point(random: &mut Random, mut call: Call, looked_at: &mut LookedAt) {
    if check(&call.listing).number != 0 {
        return;
    }
    let listing = read(&call.listing).expect("it passes");
    if !listing.points.iter().any(|point| point.is_empty()) {
        return;
    }
    for _ in 0..STEPS {
        let run = run(&call.listing, call.state, &call.trays, &mut call.results, 1);
        if matches!(run.outcome, Outcome::Refused(_)) {
            return;
        }
        for state in [call.state, run.state] {
            assert!(!listing.points[state.point as usize].is_empty(), "{call} {state:?}");
        }
        (looked_at.runs, looked_at.states) = (looked_at.runs + 1, looked_at.states + 2);
        if run.outcome == Outcome::Stopped {
            return;
        }
        call.state = run.state;
        let byte = random.draw() as u8;
        [&mut call.trays, &mut call.results].into_iter().for_each(|table| table.fill(byte));
    }
}

/// Also where the first state is any at all.
#[test]
fn no_run_comes_to_an_empty_point() {
    let mut random = Random::new(79);
    let mut looked_at = LookedAt::default();
    let parts = ["dead stretches", "empty", "hostile claims"];
    let families = all_runs().into_iter().filter(|family| parts.iter().any(|part| family.name.contains(part)));
    for family in families.map(|family| family.thinned(SHARE)) {
        for batch in 0..family.batches {
            for trial in family.batch(&mut family.random(batch)) {
                never_at_an_empty_point(&mut random, trial.call, &mut looked_at);
            }
        }
    }
    let LookedAt { runs, states } = looked_at;
    println!("{states} states of {runs} runs");
    assert!(runs * SHARE > 50_000, "{runs} runs");
}

/// A run in pieces is the run at once, and both are the steps of the machine.
#[test]
fn runs_are_steps() {
    let mut random = Random::new(78);
    let routines = all().into_iter().next().expect("there are families").thinned(20);
    for batch in 0..routines.batches {
        let text = routines.batch(batch).remove(0);
        let listing = read(&text).expect("it passes");
        let Some(start) = start(&mut random, &listing) else { continue };
        let budget = random.below(30) as u32;
        let mut at_once = start.results.clone();
        let whole = run(&text, start.state, &start.trays, &mut at_once, budget);

        let (mut state, mut results, mut made) = (start.state, start.results.clone(), 0);
        while made < budget as u64 {
            let Step::Moved(next) = step(&listing, &state, &start.trays, &mut results) else { break };
            (state, made) = (next, made + 1);
        }
        assert_eq!((whole.state, whole.steps, &at_once), (state, made, &results));
        let stopped = step(&listing, &state, &start.trays, &mut results) == Step::Stopped;
        assert_eq!(whole.outcome, if stopped { Outcome::Stopped } else { Outcome::Paused });

        let mut in_pieces = start.results.clone();
        let first = run(&text, start.state, &start.trays, &mut in_pieces, budget / 2);
        let second = run(&text, first.state, &start.trays, &mut in_pieces, budget - budget / 2);
        assert_eq!((second.state, first.steps + second.steps, in_pieces), (state, made, at_once));
    }
}

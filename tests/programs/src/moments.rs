//! Runs killed or ended at random moments, and after each call of the wrapper.

use crate::expect::{ensure, Test};
use crate::folder::Folder;
use crate::interpose::{Breaker, How, Whose};
use crate::process::{said, Said, KILL, TERM};
use crate::routines::counting;
use crate::stages::Stages;
use std::thread::sleep;
use std::time::{Duration, Instant};
use trials::random::Random;

const KILLS: usize = 40;
const ENDS: usize = 16;
/// The wrapper makes more calls than that: it opens two locks, and turns what it and its messages go to elsewhere.
const FEWEST_CALLS: u32 = 12;

pub fn tests() -> Vec<Test> {
    vec![
        ("everything killed at random moments", || at_moments("kill_moments", KILLS, 201, true)),
        ("the wrapper ended at random moments", || at_moments("end_moments", ENDS, 202, false)),
        ("the wrapper ended after each of its calls", after_each_call),
    ]
}

/// How long a call takes, in microseconds.
fn duration(folder: &Folder, budget: u32) -> usize {
    let start = Instant::now();
    folder.run(budget);
    start.elapsed().as_micros() as usize
}

/// Breaks runs off after delays that a call's duration covers; what is left is of one run, and the next call goes on.
fn at_moments(name: &str, times: usize, seed: u64, kills: bool) -> Result<(), String> {
    let (folder, call) = (Folder::new(name), counting(2));
    let stages = Stages::new(&call, 3);
    let mut random = Random::new(seed);
    stages.begin(&folder);
    let longest = duration(&folder, call.budget).min(duration(&folder, call.budget));
    for _ in 0..times {
        stages.begin(&folder);
        let delay = Duration::from_micros(random.below(longest) as u64);
        let running = folder.start(call.budget);
        sleep(delay);
        if kills {
            running.signal_group(KILL);
        } else {
            running.signal(TERM);
        }
        let said = running.finish();
        is_of_one_run(&stages, &folder, &said).map_err(|why| format!("after {delay:?}, {said:?}: {why}"))?;
    }
    Ok(())
}

/// Where it says that something was wrong, it says what; what is left is of one run, and the next call goes on.
fn is_of_one_run(stages: &Stages, folder: &Folder, said: &Said) -> Result<(), String> {
    ensure(said.status != 2 || !said.error.is_empty(), || "it said nothing".to_string())?;
    let held = stages.held(folder)?;
    ensure(held <= 1, || format!("{held} runs were made"))?;
    stages.goes_on(folder, held)
}

/// Ends the wrapper right after its first call that changes a file or turns a descriptor elsewhere, after its second,
/// and so on until it makes no more: a signal that is heard while standard error is turned away is told too.
fn after_each_call() -> Result<(), String> {
    let (folder, breaker, call) = (Folder::new("end_calls"), Breaker::new("end_calls"), counting(2));
    let stages = Stages::new(&call, 3);
    for at in 1.. {
        stages.begin(&folder);
        let mut command = folder.command(call.budget);
        breaker.arm(&mut command, How::Term, Whose::Wrapper, at);
        let said = said(&mut command);
        let Some(name) = breaker.broken() else {
            return ensure(at > FEWEST_CALLS, || format!("only {} calls were seen", at - 1));
        };
        is_of_one_run(&stages, &folder, &said).map_err(|why| format!("at {at}, {name}, {said:?}: {why}"))?;
    }
    Ok(())
}

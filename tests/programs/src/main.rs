//! Tries the programs over files: what they print and say, what they change, and what is left where they are broken
//! off. Every answer is compared with the reference. Counted is each test.

mod arguments;
mod batches;
mod broken_off;
mod building;
mod callers;
mod example;
mod expect;
mod folder;
mod interleaved;
mod interpose;
mod kinds;
mod left_over;
mod moments;
mod output;
mod paths;
mod process;
mod readme;
mod routines;
mod runs;
mod signals;
mod slow;
mod stages;
mod statuses;
mod twice;
mod words;

use expect::Test;
use std::env;
use std::panic::catch_unwind;
use std::process::{Command, ExitCode};
use std::sync::atomic::{AtomicUsize, Ordering};
use std::sync::Mutex;
use std::thread;
use std::time::Instant;
use trials::Count;

/// Tests that run at a time.
const WORKERS: usize = 2;

fn main() -> ExitCode {
    let mut count = Count::default();
    if let Err(why) = build() {
        count.test(Err(why));
        return count.finish();
    }
    let word = env::args().nth(1).unwrap_or_default();
    let tests: Vec<Test> = all().into_iter().filter(|(name, _)| name.contains(&word)).collect();
    for ((name, _), outcome) in tests.iter().zip(outcomes(&tests)) {
        count.test(outcome.map_err(|why| format!("{name}: {why}")));
    }
    count.finish()
}

/// Builds both programs where they are not current, so that no test waits for it.
fn build() -> Result<(), String> {
    for name in ["check_listing", "run_listing"] {
        let built = Command::new(folder::program("build-program")).arg(name).status();
        if !built.is_ok_and(|status| status.success()) {
            return Err(format!("{name} cannot be built"));
        }
    }
    Ok(())
}

/// The longest first, so that the workers end together.
fn all() -> Vec<Test> {
    let groups = [
        broken_off::tests(),
        slow::tests(),
        callers::tests(),
        interleaved::tests(),
        moments::tests(),
        runs::tests(),
        readme::tests(),
        twice::tests(),
        words::tests(),
        batches::tests(),
        left_over::tests(),
        kinds::tests(),
        signals::tests(),
        arguments::tests(),
        statuses::tests(),
        output::tests(),
        paths::tests(),
        building::tests(),
        example::tests(),
    ];
    groups.into_iter().flatten().collect()
}

/// What each test found, in the order of the tests.
fn outcomes(tests: &[Test]) -> Vec<Result<(), String>> {
    let next = AtomicUsize::new(0);
    let found = Mutex::new(vec![Err("it was not tried".to_string()); tests.len()]);
    let work = || loop {
        let at = next.fetch_add(1, Ordering::SeqCst);
        let Some((name, test)) = tests.get(at) else { return };
        let start = Instant::now();
        let outcome = catch_unwind(test).unwrap_or_else(|_| Err("it panicked".to_string()));
        println!("{:6.2} s  {name}", start.elapsed().as_secs_f64());
        found.lock().expect("no worker panics")[at] = outcome;
    };
    thread::scope(|scope| (0..WORKERS).for_each(|_| drop(scope.spawn(work))));
    found.into_inner().expect("no worker panics")
}

//! Runs broken off at every call that changes a file: the next call puts right what is left, and goes on.

use crate::expect::{ensure, is_plain_answer, Test};
use crate::folder::{run_listing, Entries, Folder};
use crate::interpose::{Breaker, How, Whose};
use crate::process::{said, Said};
use crate::routines::counting;
use crate::stages::{restore, Stages};
use std::collections::BTreeMap;
use std::ffi::OsStr;
use std::os::unix::ffi::OsStrExt;
use trials::runs::Call;

/// A run makes more calls than that: both new files are made, written, synced and renamed.
const FEWEST_CALLS: u32 = 8;
const FEWEST_WRITES: u32 = 2;
/// Every so many calls the run that puts right is broken off too.
const SAMPLE: u32 = 4;
const KILLED: i32 = 128 + 9;
/// What the program does to files after it has opened them.
const ORDER: [&str; 10] = [
    "write results.new",
    "sync results.new",
    "sync of_results",
    "write state.new",
    "sync state.new",
    "sync of_state",
    "rename results.new",
    "sync of_results",
    "rename state.new",
    "sync of_state",
];

pub fn tests() -> Vec<Test> {
    vec![
        ("everything killed before each call", || each_call("kill_all", How::Kill, Whose::Everyone)),
        ("the same and others where names are no text", no_text),
        ("everything killed after each call", || each_call("after_all", How::After, Whose::Everyone)),
        ("broken off, and broken off again while put right", broken_twice),
        ("files are synced before they are renamed", order),
        ("everything killed before each call of the program", || each_call("kill", How::Kill, Whose::Program)),
        ("everything killed after each call of the program", || each_call("after", How::After, Whose::Program)),
        ("everything killed amid each write", || each_call("part", How::Part, Whose::Everyone)),
        ("the program alone killed before each call", || each_call("alone", How::Alone, Whose::Program)),
        ("each call of the program fails", || each_call("fail", How::Fail, Whose::Program)),
        ("all calls of the program fail from each on", || each_call("fails", How::Fails, Whose::Program)),
    ]
}

/// One folder whose runs are broken off.
struct Trial {
    folder: Folder,
    /// Where the wrapper makes its links.
    links: Folder,
    breaker: Breaker,
    stages: Stages,
    call: Call,
}

impl Trial {
    fn new(name: &str) -> Trial {
        Trial::inside(name, "".as_ref())
    }

    /// The folder of the runs is one of this name inside.
    fn inside(name: &str, inner: &OsStr) -> Trial {
        let call = counting(2);
        let folder = Folder::new(&format!("broken_{name}")).inner(inner);
        let links = Folder::new(&format!("broken_{name}_links"));
        Trial { folder, links, breaker: Breaker::new(&format!("broken_{name}")), stages: Stages::new(&call, 4), call }
    }

    /// A run with its call of this number broken: what it said, and the call in words, if it came to it.
    fn run(&self, how: How, whose: Whose, at: u32) -> (Said, Option<String>) {
        let mut command = self.folder.command(self.call.budget);
        command.env("TMPDIR", self.links.place());
        self.breaker.arm(&mut command, how, whose, at);
        (said(&mut command), self.breaker.broken())
    }
}

/// Breaks the run at its first call, at its second, and so on until it goes through.
fn each_call(name: &str, how: How, whose: Whose) -> Result<(), String> {
    each_call_of(Trial::new(name), how, whose)
}

/// The wrapper hands the program links in the place of names that are no UTF-8 text.
fn no_text() -> Result<(), String> {
    let breaks = [(How::Kill, Whose::Everyone), (How::Alone, Whose::Program), (How::Fail, Whose::Program)];
    let inner = OsStr::from_bytes(b"\xff\xfe");
    breaks.into_iter().try_for_each(|(how, whose)| each_call_of(Trial::inside("no_text", inner), how, whose))
}

fn each_call_of(trial: Trial, how: How, whose: Whose) -> Result<(), String> {
    let fewest = if how == How::Part { FEWEST_WRITES } else { FEWEST_CALLS };
    for at in 1.. {
        trial.stages.begin(&trial.folder);
        let (said, broken) = trial.run(how, whose, at);
        let Some(call) = broken else {
            ensure(at > fewest, || format!("only {} calls were seen", at - 1))?;
            return is_plain_answer(&trial.folder, &trial.call, &said).map(drop);
        };
        is_right(&trial, how, 0, &said).map_err(|why| format!("at {at}, {call}: {why}"))?;
    }
    Ok(())
}

/// After a break: both files are of one run, those of this stage or of the next, and the next call goes on from there.
fn is_right(trial: &Trial, how: How, stage: usize, said: &Said) -> Result<(), String> {
    if how.ends_all() {
        ensure(said.status == KILLED, || format!("it was to be killed: {said:?}"))?;
    } else if said.status == 0 {
        ensure(!said.error.is_empty(), || "a call failed and nothing was said".to_string())?;
        return trial.stages.is_made(&trial.folder, stage, said);
    } else {
        let told = said.status == 2 && said.output.is_empty() && !said.error.is_empty();
        ensure(told, || format!("{said:?} where an error is due"))?;
    }
    let held = trial.stages.held(&trial.folder)?;
    ensure(held == stage || held == stage + 1, || format!("stage {held} after {stage}"))?;
    trial.stages.goes_on(&trial.folder, held)
}

/// What runs that were broken off left: one of each kind, told apart by the names and which files are empty.
fn kinds_left(trial: &Trial) -> Vec<Entries> {
    let mut kinds = BTreeMap::new();
    for how in [How::Kill, How::Part] {
        for at in 1.. {
            trial.stages.begin(&trial.folder);
            if trial.run(how, Whose::Everyone, at).1.is_none() {
                break;
            }
            let entries = trial.folder.entries();
            let kind: Vec<(String, bool)> =
                entries.iter().map(|(name, e)| (name.clone(), e.bytes.is_empty())).collect();
            if kind.iter().any(|(name, _)| name.ends_with(".new")) {
                kinds.insert(kind, entries);
            }
        }
    }
    kinds.into_values().collect()
}

/// A run is broken off, the call that puts right is broken too, and a third one goes on.
fn broken_twice() -> Result<(), String> {
    let trial = Trial::new("twice");
    let kinds = kinds_left(&trial);
    ensure(kinds.len() >= 3, || format!("only {} kinds of what is left were seen", kinds.len()))?;
    for (first, left) in (0..).zip(&kinds) {
        for (how, whose) in [(How::Kill, Whose::Everyone), (How::Fail, Whose::Program)] {
            let place = |why| format!("left {:?}, then {why}", left.keys());
            broken_again(&trial, left, how, whose, first % SAMPLE).map_err(place)?;
        }
    }
    Ok(())
}

/// Breaks the run that puts this right at a sample of its calls.
fn broken_again(trial: &Trial, left: &Entries, how: How, whose: Whose, first: u32) -> Result<(), String> {
    for at in (0..).map(|n| 1 + first + n * SAMPLE) {
        restore(&trial.folder, left);
        let stage = trial.stages.held(&trial.folder)?;
        let (said, broken) = trial.run(how, whose, at);
        let Some(call) = broken else { return Ok(()) };
        is_right(trial, how, stage, &said).map_err(|why| format!("at {at}, {call}: {why}"))?;
    }
    Ok(())
}

/// What a run writes is on the disk before it is renamed: each file is synced, then its folder, in the order of the
/// table of what is left. Results and state are in two folders, so that each sync is seen to be of the right one.
fn order() -> Result<(), String> {
    let call = counting(2);
    let (folder, results, state) =
        (Folder::new("order"), Folder::new("order/of_results"), Folder::new("order/of_state"));
    let breaker = Breaker::new("order");
    [&folder, &results, &state].iter().for_each(|folder| folder.write(&call));
    let mut command = run_listing();
    command.args([folder.path("listing"), folder.path("trays"), results.path("results"), state.path("state")]);
    breaker.arm(command.arg(call.budget.to_string()), How::Kill, Whose::Program, 0);
    let said = said(&mut command);
    ensure(said.status == 0, || format!("{said:?}"))?;
    let last = |call: &String| call.rsplit('/').next().unwrap_or_default().to_string();
    let word = |call: &String| call.split(' ').nth(1).unwrap_or_default().to_string();
    let calls = breaker.calls().iter().map(|call| format!("{} {}", word(call), last(call))).collect::<Vec<_>>();
    let mut seen: Vec<&str> = calls.iter().map(String::as_str).filter(|call| !call.starts_with("open")).collect();
    seen.dedup();
    ensure(seen == ORDER, || format!("{seen:?}"))
}

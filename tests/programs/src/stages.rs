//! A batch that is run again and again, and what its files hold where a run was broken off.

use crate::expect::{ensure, is_answer};
use crate::folder::{state_text, Entries, Folder};
use crate::process::Said;
use crate::routines::next;
use std::fs;
use trials::runs::Call;

/// The permissions of the files, which new ones must have before they hold anything.
const RESULTS_MODE: u32 = 0o600;
const STATE_MODE: u32 = 0o640;

/// The calls of a batch: each takes up where the one before it halted.
pub struct Stages {
    calls: Vec<Call>,
}

impl Stages {
    pub fn new(first: &Call, runs: usize) -> Stages {
        let mut calls = vec![first.clone()];
        for _ in 1..runs {
            calls.push(next(calls.last().expect("there is a first")));
        }
        Stages { calls }
    }

    /// Puts the files of the first stage into the folder, and nothing else.
    pub fn begin(&self, folder: &Folder) {
        clear(folder);
        folder.write(&self.calls[0]);
        folder.set_mode("results", RESULTS_MODE);
        folder.set_mode("state", STATE_MODE);
    }

    /// The stage that the files hold, by the table of what is left: the new state alone means that the results are
    /// those of the next stage already, and anything else that both files are of one stage.
    pub fn held(&self, folder: &Folder) -> Result<usize, String> {
        modes_are_kept(folder)?;
        let (results, state) = (folder.get("results"), folder.get("state"));
        let alone = folder.has("state.new") && !folder.has("results.new");
        let of_state = if alone { folder.get("state.new") } else { state.clone() };
        let is_at = |call: &Call| call.results == results && state_text(&call.state) == of_state;
        let at =
            self.calls.iter().position(is_at).ok_or_else(|| {
                format!("results and state are of no one run; there are {:?}", folder.entries().keys())
            })?;
        let old = if alone { at.checked_sub(1) } else { Some(at) };
        ensure(old.is_some_and(|old| state_text(&self.calls[old].state) == state), || "the state is another".into())?;
        Ok(at)
    }

    /// Whether a run from this stage was made and answered.
    pub fn is_made(&self, folder: &Folder, stage: usize, said: &Said) -> Result<(), String> {
        is_answer(folder, &self.calls[stage], said)?;
        modes_are_kept(folder)?;
        ensure(folder.has_four_files(), || format!("left {:?}", folder.entries().keys()))
    }

    /// Makes the next call over what was left: it says what it did with each new file, goes on from the stage that was
    /// held, and leaves nothing.
    pub fn goes_on(&self, folder: &Folder, held: usize) -> Result<(), String> {
        let left: Vec<String> = folder.entries().into_keys().filter(|name| name.ends_with(".new")).collect();
        let said = folder.run(self.calls[held].budget);
        self.is_made(folder, held, &said).map_err(|why| format!("the next call, over {left:?}: {why}"))?;
        let told = left.iter().all(|name| said.error.contains(name.as_str()));
        ensure(told && left.is_empty() == said.error.is_empty(), || {
            format!("the next call said {:?} of {left:?}", said.error)
        })
    }
}

/// Every file that holds anything has the permissions of the old one.
fn modes_are_kept(folder: &Folder) -> Result<(), String> {
    for (name, mode) in [("results", RESULTS_MODE), ("state", STATE_MODE)] {
        let new = format!("{name}.new");
        ensure(folder.mode(name) == mode, || format!("the mode of {name} is {:o}", folder.mode(name)))?;
        ensure(folder.get(&new).is_empty() || folder.mode(&new) == mode, || {
            format!("the mode of {new} is {:o}", folder.mode(&new))
        })?;
    }
    Ok(())
}

fn clear(folder: &Folder) {
    for name in folder.entries().keys() {
        fs::remove_file(folder.at(name)).expect("the file can be removed");
    }
}

/// Puts back what a folder had.
pub fn restore(folder: &Folder, entries: &Entries) {
    clear(folder);
    for (name, entry) in entries {
        folder.put(name, &entry.bytes);
        folder.set_mode(name, entry.mode & 0o7777);
    }
}

//! What runs left, by the locks that tell whose it is; and the program called without the wrapper.

use crate::expect::{ensure, is_answer, is_error, is_unchanged, Test};
use crate::folder::{program, state_text, Folder};
use crate::process::{said, Said};
use crate::routines::counting;
use std::fs;
use std::process::Command;
use trials::runs::{After, Call};

pub fn tests() -> Vec<Test> {
    vec![
        ("new files of a run over these two are put right", own),
        ("new files without a lock are left alone", without_lock),
        ("new files of a run over other files are left alone", of_another_pair),
        ("one new file of these two and one of others", of_both),
        ("a call over another pair leaves the way to put right", by_another_pair),
        ("the program without the wrapper", without_wrapper),
        ("the program without the wrapper stops at a new file", stops_at_new_file),
        ("a run broken off by a limit on files", limited),
    ]
}

/// A file that a run can leave, and what holds where only the new state is there.
const NEW: [&str; 2] = ["results.new", "state.new"];

/// The folder where a run left these new files: whole ones, as they are just before the renames.
fn left(name: &str, new: &[&str]) -> (Folder, Call, After) {
    let call = counting(1);
    let folder = Folder::with(name, &call);
    let after = call.by_reference();
    if new.contains(&NEW[0]) {
        folder.put(NEW[0], &after.results);
    } else {
        folder.put("results", &after.results);
    }
    if new.contains(&NEW[1]) {
        folder.put(NEW[1], &state_text(&after.run.state));
    }
    (folder, call, after)
}

/// The locks that a run over these two files left.
fn lock(folder: &Folder, of: &[&str], results: &str, state: &str) {
    let text = format!("{}\n{}\n", folder.path(results), folder.path(state));
    of.iter().for_each(|name| folder.put(format!("{name}.lock"), text.as_bytes()));
}

/// Each thing that a run can leave.
const LEFT: [&[&str]; 3] = [&["results.new"], &["results.new", "state.new"], &["state.new"]];

fn own() -> Result<(), String> {
    for new in LEFT {
        let (folder, call, after) = left("left_own", new);
        lock(&folder, &["results", "state"], "results", "state");
        let counts = !new.contains(&NEW[0]);
        let next = if counts { Call { state: after.run.state, results: after.results, ..call } } else { call };
        let said = folder.run(next.budget);
        is_answer(&folder, &next, &said).map_err(|why| format!("{new:?}: {why}"))?;
        ensure(new.iter().all(|name| said.error.contains(name)), || format!("{new:?}: {said:?}"))?;
        ensure(folder.has_four_files(), || format!("{new:?}: left {:?}", folder.entries().keys()))?;
    }
    Ok(())
}

/// One message names every new file, and nothing is changed.
fn is_left_alone(folder: &Folder, new: &[&str]) -> Result<(), String> {
    let before = folder.entries();
    let said = folder.run(3);
    new.iter().try_for_each(|name| is_error(&said, name))?;
    is_unchanged(folder, &before)
}

fn without_lock() -> Result<(), String> {
    LEFT.iter().try_for_each(|new| is_left_alone(&left("left_unlocked", new).0, new))
}

/// The message names a new file and the pair that it belongs to, and nothing is changed.
fn is_left_to(folder: &Folder, new: &str, results: &str, state: &str) -> Result<(), String> {
    let before = folder.entries();
    let said = folder.run(3);
    is_error(&said, new)?;
    is_error(&said, &folder.path(results))?;
    is_error(&said, &folder.path(state))?;
    is_unchanged(folder, &before)
}

fn of_another_pair() -> Result<(), String> {
    for new in LEFT {
        for (results, state) in [("results", "other"), ("other", "state"), ("state", "results")] {
            let (folder, ..) = left("left_others", new);
            lock(&folder, &["results", "state"], results, state);
            let place = |why| format!("{new:?} of {results} and {state}: {why}");
            is_left_to(&folder, new[0], results, state).map_err(place)?;
        }
    }
    Ok(())
}

fn of_both() -> Result<(), String> {
    for (mine, new) in [("results", NEW[1]), ("state", NEW[0])] {
        let (folder, ..) = left("left_both", &NEW);
        lock(&folder, &["results", "state"], "results", "other");
        lock(&folder, &[mine], "results", "state");
        is_left_to(&folder, new, "results", "other").map_err(|why| format!("{mine} is ours: {why}"))?;
    }
    Ok(())
}

/// A call over one of the files and another is refused, and the call over the two still puts right.
fn by_another_pair() -> Result<(), String> {
    for (at, new) in [(2, LEFT[2]), (3, LEFT[0]), (2, LEFT[1]), (3, LEFT[1])] {
        let (folder, call, after) = left("left_pair", new);
        lock(&folder, &["results", "state"], "results", "state");
        let mut given = folder.arguments("3");
        fs::copy(&given[at], folder.at("other")).map_err(|error| error.to_string())?;
        given[at] = folder.path("other");
        let before = folder.entries();
        is_error(&folder.run_with(&given), ".new")?;
        is_unchanged(&folder, &before)?;
        fs::remove_file(folder.at("other")).map_err(|error| error.to_string())?;
        let counts = !new.contains(&NEW[0]);
        let next = if counts { Call { state: after.run.state, results: after.results, ..call } } else { call };
        is_answer(&folder, &next, &folder.run(next.budget))?;
        ensure(folder.has_four_files(), || format!("{new:?}: left {:?}", folder.entries().keys()))?;
    }
    Ok(())
}

fn bare(given: &[String]) -> Said {
    said(Command::new(program("target/bin/run_listing")).args(given))
}

fn without_wrapper() -> Result<(), String> {
    let call = counting(1);
    let folder = Folder::with("bare", &call);
    let said = Said { status: 0, ..bare(&folder.arguments("3")) };
    crate::expect::is_plain_answer(&folder, &call, &said).map(drop)
}

fn stops_at_new_file() -> Result<(), String> {
    for new in LEFT {
        let (folder, ..) = left("bare_left", new);
        let before = folder.entries();
        let said = bare(&folder.arguments("3"));
        let named = new.iter().any(|name| said.error.contains(name));
        ensure(said.output.is_empty() && named, || format!("{new:?}: {said:?}"))?;
        is_unchanged(&folder, &before)?;
    }
    Ok(())
}

/// The system ends the program while it writes the new results, by a limit on the size of a file.
fn limited() -> Result<(), String> {
    let call = Call { results: vec![9; 65_536], ..counting(1) };
    let folder = Folder::with("limited", &call);
    for path in ["target/bin/run_listing", "run-listing"] {
        let mut command = Command::new("bash");
        command.arg("-c").arg("ulimit -c 0 -f 4; exec \"$0\" \"$@\"").arg(program(path));
        let said = said(command.args(folder.arguments("3")));
        ensure(said.output.is_empty() && said.status != 0, || format!("{path}: {said:?}"))?;
        ensure(folder.holds(&call.state, &call.results), || format!("{path}: a file was changed"))?;
        if path != "run-listing" && folder.has(NEW[0]) {
            is_left_alone(&folder, &[NEW[0]])?;
            NEW.iter().for_each(|name| drop(fs::remove_file(folder.at(name))));
        }
    }
    is_answer(&folder, &call, &folder.run(3))?;
    ensure(folder.has_four_files(), || format!("left {:?}", folder.entries().keys()))
}

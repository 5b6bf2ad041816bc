//! What a run must say and leave: compared with the reference.

use crate::folder::{Entries, Folder};
use crate::process::Said;
use reference::{Outcome, Run};
use trials::runs::Call;

/// A test by its name, and the function that tries it.
pub type Test = (&'static str, fn() -> Result<(), String>);

pub fn ensure(holds: bool, why: impl FnOnce() -> String) -> Result<(), String> {
    if holds {
        Ok(())
    } else {
        Err(why())
    }
}

/// The line that the program prints for a run.
pub fn line(run: &Run) -> String {
    match run.outcome {
        Outcome::Stopped => format!("STOP{:>4}{:>31}\n", run.state.point, run.steps),
        Outcome::Paused => format!("PAUS{:>4}{:>31}\n", run.state.point, run.steps),
        Outcome::Refused(refusal) => {
            let second = if refusal.second == 0 { String::new() } else { refusal.second.to_string() };
            format!("FAIL{:>4}{:>16}{:>15}\n", refusal.number, second, refusal.place)
        }
    }
}

/// Whether this was said of the call, and the files are as it leaves them, with nothing beside them.
pub fn is_answer(folder: &Folder, call: &Call, said: &Said) -> Result<Run, String> {
    let after = call.by_reference();
    let refused = matches!(after.run.outcome, Outcome::Refused(_));
    ensure(said.output == line(&after.run), || format!("it printed {said:?}, not {:?}\n{call}", line(&after.run)))?;
    ensure(said.status == i32::from(refused), || format!("status {said:?}\n{call}"))?;
    ensure(folder.holds(&after.run.state, &after.results), || {
        format!("the files are not as the run left them\n{call}")
    })?;
    Ok(after.run)
}

/// Whether it was answered as `is_answer` says, with no message but for a refusal, and nothing is left over.
pub fn is_plain_answer(folder: &Folder, call: &Call, said: &Said) -> Result<Run, String> {
    let run = is_answer(folder, call, said)?;
    ensure(said.error.is_empty() == (said.status == 0), || format!("its message {said:?}"))?;
    ensure(folder.has_four_files(), || format!("more is there than before: {:?}", folder.entries().keys()))?;
    Ok(run)
}

/// Runs the call through files and compares everything with the reference.
pub fn agrees(folder: &Folder, call: &Call) -> Result<Run, String> {
    folder.write(call);
    is_plain_answer(folder, call, &folder.run(call.budget))
}

/// Nothing is printed, the status is 2, and the message has this part.
pub fn is_error(said: &Said, part: &str) -> Result<(), String> {
    let told = said.output.is_empty() && said.status == 2 && !said.error.is_empty() && said.error.contains(part);
    ensure(told, || format!("{said:?} where an error with '{part}' is due"))
}

/// The folder has what it had before.
pub fn is_unchanged(folder: &Folder, before: &Entries) -> Result<(), String> {
    let now = folder.entries();
    let differs = |name: &&String| now.get(*name) != before.get(*name);
    let names: Vec<&String> = now.keys().chain(before.keys()).filter(differs).collect();
    ensure(names.is_empty(), || format!("changed, made or removed: {names:?}"))
}

//! Callers over the same results, one of them stopped after each of its calls that change a file while others call.

use crate::callers::stopping;
use crate::expect::{ensure, is_error, line, Test};
use crate::folder::{state_text, Folder};
use crate::interpose::{Breaker, Whose};
use crate::process::{Running, Said, CONT};
use crate::routines::{counting, ROUND};
use trials::runs::Call;

const FEWEST_CALLS: u32 = 8;

pub fn tests() -> Vec<Test> {
    vec![("a caller stopped after each of its calls while two others call", each_call)]
}

/// Stops the caller after its first call that changes a file, after its second, and so on until it goes through.
fn each_call() -> Result<(), String> {
    let call = counting(1);
    let breakers = [Breaker::new("interleaved_1"), Breaker::new("interleaved_3")];
    for at in 1.. {
        let folder = Folder::with("interleaved", &call);
        folder.put("other", &state_text(&call.state));
        let (first, stopped) = stopping(&folder.arguments("3"), &breakers[0], Whose::Everyone, at);
        if !stopped {
            ensure(at > FEWEST_CALLS, || format!("only {} calls were seen", at - 1))?;
            return ensure(first.finish().status == 0, || "it does not go through".to_string());
        }
        let place = breakers[0].broken().unwrap_or_default();
        with_others(&folder, &call, first, &breakers[1]).map_err(|why| format!("at {at}, {place}: {why}"))?;
    }
    Ok(())
}

/// While the first is stopped, a second makes a whole call, and a third, over the same results and another state, stops
/// in its program. So a lock that the first has opened may be gone, and the third may hold another of the same name:
/// the first goes on and changes nothing. Then the third goes on.
fn with_others(folder: &Folder, call: &Call, first: Running, breaker: &Breaker) -> Result<(), String> {
    let second = folder.run(ROUND);
    let mut given = folder.arguments("3");
    given[3] = folder.path("other");
    let (third, holds) = stopping(&given, breaker, Whose::Program, 1);
    let before = (folder.get("results"), folder.get("state"));
    first.signal_group(CONT);
    let first = first.finish();
    let kept = before == (folder.get("results"), folder.get("state"));
    third.signal_group(CONT);
    let third = third.finish();
    ensure(kept || !holds, || format!("the first changed a file of the third: {first:?}"))?;
    let own = answered(call, &[first, second])?;
    let other = answered(call, &[third])?;
    let is_at = |count: u32, name: &str| folder.get(name) == state_text(&after(call, count).state);
    ensure(is_at(own, "state") && is_at(other, "other"), || format!("{own} and {other} were answered, not counted"))?;
    let counted = |count: u32| folder.get("results") == after(call, count).results;
    ensure(own + other > 0 && (counted(own) || counted(other)), || "the results are of no call".to_string())?;
    ensure(folder.entries().len() == 5, || format!("left {:?}", folder.entries().keys()))
}

/// The call after so many rounds.
fn after(call: &Call, rounds: u32) -> Call {
    let after = Call { budget: rounds * ROUND, ..call.clone() }.by_reference();
    Call { state: after.run.state, results: after.results, ..call.clone() }
}

/// How many were answered; the others were turned away.
fn answered(call: &Call, said: &[Said]) -> Result<u32, String> {
    let answer = line(&call.by_reference().run);
    let is_answer = |said: &&Said| said.output == answer && said.status == 0 && said.error.is_empty();
    said.iter().filter(|said| !is_answer(said)).try_for_each(|said| is_error(said, "another call is running"))?;
    Ok(said.iter().filter(is_answer).count() as u32)
}

//! Wrappers that are slow: what they start may end before they have noted that it was started.

use crate::expect::{ensure, is_plain_answer, Test};
use crate::folder::{check_listing, Folder};
use crate::interpose::{Breaker, How, Whose};
use crate::process::said;
use crate::routines::counting;
use reference::{check, printed};

/// Places after the start of a process at which the wrapper waits.
const PLACES: u32 = 3;

pub fn tests() -> Vec<Test> {
    vec![("a slow wrapper that runs", run), ("a slow wrapper that checks", checked)]
}

fn run() -> Result<(), String> {
    let call = counting(1);
    for place in 1..=PLACES {
        let folder = Folder::with("slow_run", &call);
        let mut command = folder.command(call.budget);
        Breaker::new("slow_run").arm(&mut command, How::Slow, Whose::Wrapper, place);
        is_plain_answer(&folder, &call, &said(&mut command)).map_err(|why| format!("at place {place}: {why}"))?;
    }
    Ok(())
}

fn checked() -> Result<(), String> {
    let folder = Folder::with("slow_check", &counting(1));
    let line = printed(&check(&folder.get("listing")));
    for place in 1..=PLACES {
        let mut command = check_listing();
        command.arg(folder.at("listing"));
        Breaker::new("slow_check").arm(&mut command, How::Slow, Whose::Wrapper, place);
        let said = said(&mut command);
        ensure(said.status == 0 && said.output.as_bytes() == line, || format!("at place {place}: {said:?}"))?;
    }
    Ok(())
}

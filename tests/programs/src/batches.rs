//! Fifty batches by one command, as README gives it, and the same command again.

use crate::expect::{ensure, line, Test};
use crate::folder::{program, root, state_text, Folder};
use crate::process::{said, Said};
use crate::routines::viability_of;
use std::fs;
use std::os::unix::fs::symlink;
use std::process::Command;
use trials::runs::Call;

const BATCHES: u16 = 50;
/// The command where README has none.
const COMMAND: &str = "ls batches | xargs -P 2 -I NAME sh -c 'printf \"%s\\n\" \"NAME: $(./run-listing \
    examples/viability.lst batches/NAME/trays batches/NAME/results batches/NAME/state 100)\"'";

pub fn tests() -> Vec<Test> {
    vec![("fifty batches by one command, twice", twice)]
}

/// README's command line with xargs, with the lines that it goes on in.
fn command() -> String {
    let text = fs::read_to_string(root().join("README.md")).expect("README.md is there");
    let code = text.lines().filter_map(|line| line.strip_prefix("    "));
    let mut lines = code.skip_while(|line| !line.contains("xargs"));
    let mut command = lines.next().unwrap_or(COMMAND).to_string();
    while command.ends_with('\\') {
        command += &format!("\n{}", lines.next().unwrap_or_default());
    }
    command
}

/// The budget that a command gives: the number at the end of the wrapper's arguments.
fn budget(command: &str) -> Option<u32> {
    let (_, rest) = command.split_once("run-listing")?;
    let words = rest.split(|c: char| c.is_whitespace() || "\"')`".contains(c));
    words.filter_map(|word| word.parse().ok()).next()
}

fn name(batch: u16) -> String {
    format!("batch{batch:02}")
}

/// Batches of 1 to 7 trays, so that some stop in the first call and some do not.
fn call(batch: u16, budget: u32) -> Call {
    let records: Vec<(u16, u16)> = (0..1 + batch % 7).map(|tray| (tray * batch, tray * 13)).collect();
    viability_of(&records, budget)
}

fn twice() -> Result<(), String> {
    let command = command();
    let budget = budget(&command).ok_or_else(|| format!("no budget in {command}"))?;
    let folder = Folder::new("many");
    symlink(program("run-listing"), folder.at("run-listing")).expect("a link can be made");
    symlink(root().join("examples"), folder.at("examples")).expect("a link can be made");
    let mut calls: Vec<Call> = (0..BATCHES).map(|batch| call(batch, budget)).collect();
    for (batch, call) in (0..).zip(&calls) {
        let own = folder.inner(format!("batches/{}", name(batch)));
        own.put("trays", &call.trays);
        own.put("results", &call.results);
        own.put("state", &state_text(&call.state));
    }
    for _ in 0..2 {
        let said = said(Command::new("bash").arg("-c").arg(&command).current_dir(folder.place()));
        ensure(said.status == 0 && said.error.is_empty(), || format!("{} {}", said.error, said.output))?;
        ensure(said.output.lines().count() == calls.len(), || format!("{} lines", said.output.lines().count()))?;
        for (batch, call) in (0..).zip(&mut calls) {
            is_answered(&folder, &name(batch), call, &said)?;
            *call = crate::routines::next(call);
        }
    }
    Ok(())
}

/// One line has the batch's name and its answer, and its files are as the reference leaves them.
fn is_answered(folder: &Folder, name: &str, call: &Call, said: &Said) -> Result<(), String> {
    let after = call.by_reference();
    let answers: Vec<&str> = said.output.lines().filter(|line| line.contains(name)).collect();
    let answer = line(&after.run);
    ensure(answers.len() == 1 && answers[0].contains(answer.trim_end()), || format!("{name}: {answers:?}"))?;
    let own = folder.inner(format!("batches/{name}"));
    ensure(own.holds(&after.run.state, &after.results), || format!("{name}: its files are others"))?;
    ensure(own.entries().len() == 3, || format!("{name}: left {:?}", own.entries().keys()))
}

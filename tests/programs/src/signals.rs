//! Signals to the wrapper end the program too.

use crate::expect::{ensure, is_answer, is_error, is_unchanged, Test};
use crate::folder::{check_listing, Folder};
use crate::interpose::{Breaker, How, Whose};
use crate::process::{processes, start, until, Running, HUP, INT, KILL, TERM};
use crate::routines::{counting, endless};
use std::fs::{File, OpenOptions};
use std::process::Command;
use std::thread::sleep;
use std::time::{Duration, Instant};
use trials::runs::Call;

const SIGNALS: [i32; 3] = [TERM, INT, HUP];
/// Time for a program that goes on to be seen.
const A_WHILE: Duration = Duration::from_millis(100);
/// Places after the start of a process at which the wrapper waits.
const PLACES: u32 = 3;
/// Time in which a signal is heard.
const AT_ONCE: Duration = Duration::from_secs(5);

pub fn tests() -> Vec<Test> {
    vec![
        ("signals while a routine runs", || SIGNALS.iter().try_for_each(|signal| while_running(*signal, false))),
        ("a signal to the wrapper and the program", || while_running(INT, true)),
        ("a signal while the program is being started", || (1..=PLACES).try_for_each(while_starting)),
        ("signals while the listing is awaited", || SIGNALS.iter().try_for_each(|signal| while_reading(*signal))),
        ("signals while a listing to check is awaited", || SIGNALS.iter().try_for_each(|s| while_checking(*s, 0))),
        ("a signal while the checker is being started", || (1..=PLACES).try_for_each(|at| while_checking(TERM, at))),
    ]
}

/// Ends what runs by the signal: status 2 with a message, and no program goes on.
fn is_ended(running: Running, signal: i32, to_all: bool, program: &str, argument: &str) -> Result<(), String> {
    if !until(|| !processes(program, argument).is_empty()) {
        running.signal_group(KILL);
        return Err("the program was not started".to_string());
    }
    if to_all {
        running.signal_group(signal);
    } else {
        running.signal(signal);
    }
    let sent = Instant::now();
    let said = running.finish();
    is_error(&said, "").map_err(|why| format!("signal {signal}: {why}"))?;
    ensure(sent.elapsed() < AT_ONCE, || format!("signal {signal}: it ended after {:?}", sent.elapsed()))?;
    ensure(processes(program, argument).is_empty(), || format!("signal {signal}: the program goes on"))
}

/// The files are as they were, and the next call goes on from them.
fn is_whole(folder: &Folder, call: &Call) -> Result<(), String> {
    sleep(A_WHILE);
    ensure(folder.holds(&call.state, &call.results), || "a file was changed".to_string())?;
    let next = Call { budget: 6, ..call.clone() };
    is_answer(folder, &next, &folder.run(6))?;
    ensure(folder.has_four_files(), || format!("left {:?}", folder.entries().keys()))
}

fn while_running(signal: i32, to_all: bool) -> Result<(), String> {
    let call = endless();
    let folder = Folder::with(if to_all { "signals_all" } else { "signals" }, &call);
    is_ended(folder.start(call.budget), signal, to_all, "run_listing", &folder.path("listing"))?;
    is_whole(&folder, &call)
}

/// The wrapper has started the program and is slow to go on from there.
fn while_starting(place: u32) -> Result<(), String> {
    let call = endless();
    let folder = Folder::with("signals_starting", &call);
    let mut command = folder.command(call.budget);
    Breaker::new("signals_starting").arm(&mut command, How::Slow, Whose::Wrapper, place);
    is_ended(start(&mut command), TERM, false, "run_listing", &folder.path("listing"))?;
    is_whole(&folder, &call)
}

/// A pipe that is open, so that a reader of it waits.
fn open_pipe(folder: &Folder, name: &str) -> File {
    let made = Command::new("mkfifo").arg(folder.at(name)).status();
    assert!(made.is_ok_and(|status| status.success()), "a pipe can be made");
    OpenOptions::new().read(true).write(true).open(folder.at(name)).expect("the pipe can be opened")
}

fn while_reading(signal: i32) -> Result<(), String> {
    let call = counting(2);
    let folder = Folder::with("signals_reading", &call);
    let pipes = Folder::new("signals_pipe");
    let pipe = open_pipe(&pipes, "pipe");
    let mut given = folder.arguments("6");
    given[0] = pipes.path("pipe");
    let running = start(crate::folder::run_listing().args(&given));
    is_ended(running, signal, false, "run_listing", &given[0])?;
    drop(pipe);
    is_whole(&folder, &call)
}

/// The wrapper is slow to go on from this place after it has started the program, if it is not 0.
fn while_checking(signal: i32, place: u32) -> Result<(), String> {
    let folder = Folder::new(if place > 0 { "signals_checker" } else { "signals_checking" });
    let pipe = open_pipe(&folder, "pipe");
    let before = folder.entries();
    let mut command = check_listing();
    command.arg(folder.at("pipe"));
    if place > 0 {
        Breaker::new("signals_checker").arm(&mut command, How::Slow, Whose::Wrapper, place);
    }
    is_ended(start(&mut command), signal, false, "check_listing", &folder.path("pipe"))?;
    drop(pipe);
    is_unchanged(&folder, &before)
}

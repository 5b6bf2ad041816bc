//! Two callers over the same files: one of them runs, the other is turned away.

use crate::expect::{ensure, is_answer, is_error, is_plain_answer, is_unchanged, line, Test};
use crate::folder::{run_listing, Folder, FILES};
use crate::interpose::{Breaker, How, Whose};
use crate::process::{processes, said, send, start, until, Running, Said, CONT, KILL};
use crate::routines::{counting, endless, ROUND};
use std::fs;
use std::os::unix::fs::symlink;
use std::thread;
use std::time::Duration;
use trials::runs::Call;

const TURNED_AWAY: &str = "another call is running";
const TRIES: usize = 5_000;

pub fn tests() -> Vec<Test> {
    vec![
        ("two callers, one path", || two_callers("callers", 60, |folder| folder.arguments("3"))),
        ("two callers, one through a link to the folder", || two_callers("callers_folder", 15, by_folder_link)),
        ("two callers, one through links to the files", || two_callers("callers_files", 15, by_file_links)),
        ("a call is turned away while the first is stopped", while_stopped),
        ("a call over one of the two files is turned away", over_one_file),
        ("a call that was killed blocks nobody", killed),
        ("a program whose wrapper was killed keeps its files", wrapper_killed),
        ("other files of the folder are free", other_files),
    ]
}

/// The arguments by way of a link to the folder.
fn by_folder_link(folder: &Folder) -> Vec<String> {
    let link = folder.place().with_extension("link");
    let _ = fs::remove_file(&link);
    symlink(folder.place(), &link).expect("a link can be made");
    let mut given: Vec<String> = FILES.iter().map(|name| link.join(name).to_string_lossy().into_owned()).collect();
    given.push(ROUND.to_string());
    given
}

/// The arguments by way of links in another folder to each file.
fn by_file_links(folder: &Folder) -> Vec<String> {
    let links = Folder::new("callers_links");
    FILES.iter().for_each(|name| symlink(folder.at(name), links.at(name)).expect("a link can be made"));
    links.arguments(&ROUND.to_string())
}

fn is_turned_away(said: &Said) -> bool {
    said.status == 2 && said.output.is_empty() && said.error.contains(TURNED_AWAY)
}

/// Makes so many calls, each until it is not turned away, and answers how often it was.
fn call_again(given: &[String], calls: usize, answer: &str) -> Result<usize, String> {
    let mut turned_away = 0;
    for _ in 0..calls {
        let mut answered = said(run_listing().args(given));
        while is_turned_away(&answered) {
            turned_away += 1;
            ensure(turned_away < TRIES, || "it was turned away all the time".to_string())?;
            thread::sleep(Duration::from_millis(5 + turned_away as u64 % 23));
            answered = said(run_listing().args(given));
        }
        let plain = answered.status == 0 && answered.output == answer && answered.error.is_empty();
        ensure(plain, || format!("{answered:?}"))?;
    }
    Ok(turned_away)
}

/// Two callers make so many calls each, one of them by other paths; the register counts every one that was answered.
fn two_callers(name: &str, calls: usize, other: fn(&Folder) -> Vec<String>) -> Result<(), String> {
    let call = counting(1);
    let folder = Folder::with(name, &call);
    let answer = line(&call.by_reference().run);
    let paths = [folder.arguments(&ROUND.to_string()), other(&folder)];
    let outcomes = thread::scope(|scope| {
        let callers = paths.each_ref().map(|given| scope.spawn(|| call_again(given, calls, &answer)));
        callers.map(|caller| caller.join().unwrap_or_else(|_| Err("it panicked".to_string())))
    });
    let turned_away: usize = outcomes.into_iter().sum::<Result<usize, String>>()?;
    ensure(turned_away > 0, || "no call met another".to_string())?;
    let all = Call { budget: 2 * calls as u32 * ROUND, ..call }.by_reference();
    ensure(folder.holds(&all.run.state, &all.results), || "a call was lost".to_string())?;
    ensure(folder.has_four_files(), || format!("left {:?}", folder.entries().keys()))
}

/// A call over these files that stops once it has made its call of this number that changes a file, if it comes to it.
pub fn stopping(given: &[String], breaker: &Breaker, whose: Whose, at: u32) -> (Running, bool) {
    let mut command = run_listing();
    breaker.arm(command.args(given), How::Stop, whose, at);
    let mut running = start(&mut command);
    let stopped = running.comes_to_stop();
    (running, stopped)
}

/// A call whose program is stopped before it has read anything.
fn stopped(folder: &Folder, name: &str) -> Result<Running, String> {
    let (running, stopped) = stopping(&folder.arguments("3"), &Breaker::new(name), Whose::Program, 1);
    ensure(stopped, || "the program did not come to its first call".to_string())?;
    Ok(running)
}

/// A call that runs without end, and its program.
fn started(folder: &Folder) -> Result<(Running, i32), String> {
    let running = folder.start(endless().budget);
    let argument = folder.path("listing");
    if until(|| !processes("run_listing", &argument).is_empty()) {
        return Ok((running, processes("run_listing", &argument)[0]));
    }
    running.signal_group(KILL);
    Err("the program was not started".to_string())
}

fn while_stopped() -> Result<(), String> {
    let call = counting(1);
    let folder = Folder::with("stopped", &call);
    let first = stopped(&folder, "stopped")?;
    let before = folder.entries();
    let second = folder.run(ROUND);
    let kept = is_unchanged(&folder, &before);
    first.signal_group(CONT);
    let first = first.finish();
    is_error(&second, TURNED_AWAY)?;
    kept?;
    is_plain_answer(&folder, &call, &first).map(drop)
}

/// The second call has the results or the state of the first, and the other file is its own.
fn over_one_file() -> Result<(), String> {
    let folder = Folder::with("one_file", &counting(1));
    let first = stopped(&folder, "one_file")?;
    let mut outcome = Ok(());
    for at in [2, 3] {
        let mut given = folder.arguments("3");
        fs::copy(&given[at], folder.at("own")).map_err(|error| error.to_string())?;
        given[at] = folder.path("own");
        let before = folder.entries();
        let said = folder.run_with(&given);
        outcome = outcome.and(is_error(&said, TURNED_AWAY)).and(is_unchanged(&folder, &before));
    }
    first.signal_group(KILL);
    first.finish();
    outcome
}

/// The next call after one that was killed.
fn goes_on(folder: &Folder) -> Result<(), String> {
    let call = counting(1);
    is_answer(folder, &call, &folder.run(call.budget))?;
    ensure(folder.has_four_files(), || format!("left {:?}", folder.entries().keys()))
}

fn killed() -> Result<(), String> {
    let folder = Folder::with("killed", &endless());
    let (first, _) = started(&folder)?;
    first.signal_group(KILL);
    first.finish();
    goes_on(&folder)
}

/// The program inherits what keeps other calls away.
fn wrapper_killed() -> Result<(), String> {
    let folder = Folder::with("wrapper_killed", &endless());
    let (mut first, program) = started(&folder)?;
    first.signal(KILL);
    first.wait();
    let second = folder.run(ROUND);
    send(program, KILL);
    first.finish();
    is_error(&second, TURNED_AWAY)?;
    goes_on(&folder)
}

/// A call over other files of the same folder, with the same listing and trays, is answered while one runs.
fn other_files() -> Result<(), String> {
    let call = counting(1);
    let folder = Folder::with("others", &call);
    let mut given = folder.arguments("3");
    for at in [2, 3] {
        let own = folder.path(&format!("own_{}", FILES[at]));
        fs::copy(&given[at], &own).map_err(|error| error.to_string())?;
        given[at] = own;
    }
    let first = stopped(&folder, "others")?;
    let second = folder.run_with(&given);
    first.signal_group(KILL);
    first.finish();
    let after = call.by_reference();
    ensure(second.status == 0 && second.output == line(&after.run), || format!("{second:?}"))?;
    ensure(folder.get("own_results") == after.results, || "its results are others".to_string())
}

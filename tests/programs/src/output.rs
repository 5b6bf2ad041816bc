//! Standard output that cannot be written: a full disk, a pipe that nobody reads, and none at all.

use crate::expect::{ensure, is_plain_answer, is_unchanged, Test};
use crate::folder::{check_listing, program, Folder};
use crate::process::{said, start_with, Said};
use crate::routines::{counting, viability};
use lines::listing;
use std::fs::OpenOptions;
use std::io;
use std::path::PathBuf;
use std::process::{Command, Stdio};
use trials::runs::Call;

pub fn tests() -> Vec<Test> {
    vec![
        ("a run whose line cannot be written", || each_output(run_made)),
        ("a refusal whose line cannot be written", || each_output(run_refused)),
        ("a check whose line cannot be written", || each_output(checked)),
        ("a run with no standard input or error", closed_others),
    ]
}

/// Where the output goes.
#[derive(Clone, Copy, Debug)]
enum To {
    FullDisk,
    ClosedPipe,
    ClosedPipeUnheard,
    Nowhere,
}

/// The program's arguments after a shell's, which may close the output or have its signal ignored.
fn behind_shell(words: &str, path: PathBuf, given: &[String]) -> Command {
    let mut command = Command::new("bash");
    command.arg("-c").arg(words).arg(path).args(given);
    command
}

fn said_to(to: To, path: PathBuf, given: &[String]) -> Said {
    let words = match to {
        To::FullDisk | To::ClosedPipe => "exec \"$0\" \"$@\"",
        To::ClosedPipeUnheard => "trap '' PIPE; exec \"$0\" \"$@\"",
        To::Nowhere => "exec \"$0\" \"$@\" >&-",
    };
    let output = match to {
        To::FullDisk => Stdio::from(OpenOptions::new().write(true).open("/dev/full").expect("there is /dev/full")),
        To::ClosedPipe | To::ClosedPipeUnheard => Stdio::from(io::pipe().expect("a pipe can be made").1),
        To::Nowhere => Stdio::null(),
    };
    start_with(&mut behind_shell(words, path, given), output).finish()
}

fn each_output(test: fn(To) -> Result<(), String>) -> Result<(), String> {
    for to in [To::FullDisk, To::ClosedPipe, To::ClosedPipeUnheard, To::Nowhere] {
        test(to).map_err(|why| format!("{to:?}: {why}"))?;
    }
    Ok(())
}

/// Status 2, and the message has this part.
fn is_told(said: &Said, part: &str) -> Result<(), String> {
    ensure(said.status == 2 && !said.error.is_empty() && said.error.contains(part), || format!("{said:?}"))
}

/// The message says that the files were changed, and they are.
fn run_made(to: To) -> Result<(), String> {
    let call = counting(1);
    let folder = Folder::with("output_run", &call);
    let said = said_to(to, program("run-listing"), &folder.arguments("3"));
    is_told(&said, "changed")?;
    let after = call.by_reference();
    ensure(folder.holds(&after.run.state, &after.results), || "the files were not changed".to_string())?;
    ensure(folder.has_four_files(), || format!("left {:?}", folder.entries().keys()))?;
    let next = Call { state: after.run.state, results: after.results, ..call };
    is_plain_answer(&folder, &next, &folder.run(next.budget)).map(drop)
}

fn run_refused(to: To) -> Result<(), String> {
    let call = counting(1).with_listing(&listing("JUMP _ _ _ 1"));
    let folder = Folder::with("output_refused", &call);
    let before = folder.entries();
    is_told(&said_to(to, program("run-listing"), &folder.arguments("3")), "")?;
    is_unchanged(&folder, &before)
}

fn checked(to: To) -> Result<(), String> {
    let folder = Folder::with("output_checked", &viability(0));
    folder.put("refused", &listing("JUMP _ _ _ 1"));
    let (passed, refused) = (folder.path("listing"), folder.path("refused"));
    for given in [vec![passed.clone()], vec![refused.clone()], vec![passed, refused]] {
        is_told(&said_to(to, check_listing().get_program().into(), &given), "")?;
    }
    Ok(())
}

/// What is opened next must not be taken for an input or output of the program.
fn closed_others() -> Result<(), String> {
    let call = counting(1);
    for words in ["exec \"$0\" \"$@\" <&-", "exec \"$0\" \"$@\" 2>&-", "exec \"$0\" \"$@\" <&- 2>&-"] {
        let folder = Folder::with("output_others", &call);
        let said = said(&mut behind_shell(words, program("run-listing"), &folder.arguments("3")));
        is_plain_answer(&folder, &call, &said).map_err(|why| format!("{words}: {why}"))?;
    }
    Ok(())
}

//! Where the files and the wrapper stand: long paths, odd names, links, other folders, and pipes.

use crate::expect::{agrees, ensure, is_error, is_plain_answer, is_unchanged, line, Test};
use crate::folder::{check_listing, program, root, run_listing, state_text, Folder, FILES};
use crate::process::{said, Said};
use crate::routines::{counting, viability};
use reference::{check, printed};
use std::ffi::OsStr;
use std::fs;
use std::os::unix::ffi::OsStrExt;
use std::os::unix::fs::symlink;
use std::process::Command;
use trials::runs::Call;

/// Bytes of a path that the programs take, and of one that leaves no room for what they write beside it.
const LONG: usize = 4_000;
const TOO_LONG: usize = 4_093;

pub fn tests() -> Vec<Test> {
    vec![
        ("long paths", long_paths),
        ("long names", long_names),
        ("odd names", odd_names),
        ("names with a line feed", line_feeds),
        ("relative names", relative),
        ("the wrappers through a link", through_link),
        ("the wrappers from other folders", from_elsewhere),
        ("a run with listing and trays from pipes", run_from_pipes),
        ("a check of listings from pipes", check_from_pipes),
    ]
}

/// A folder inside whose files of a name of 8 bytes have paths of this length.
fn deep(name: &str, length: usize) -> Folder {
    let mut folder = Folder::new(name);
    let room = |folder: &Folder| length - folder.place().as_os_str().len() - 9;
    while room(&folder) > 0 {
        let left = room(&folder);
        let step = if left > 220 { 200 } else { left - 1 };
        folder = folder.inner("d".repeat(step));
    }
    folder
}

/// Puts a call's files under names of 8 bytes, and gives the arguments of a run over them.
fn with_long_names(folder: &Folder, call: &Call) -> Vec<String> {
    let names = ["listing_", "trays___", "results_", "state___"];
    let texts = [&call.listing, &call.trays, &call.results, &state_text(&call.state)];
    names.iter().zip(texts).for_each(|(name, bytes)| folder.put(name, bytes));
    let given = names.iter().map(|name| folder.path(name));
    given.chain([call.budget.to_string()]).collect()
}

fn long_paths() -> Result<(), String> {
    let call = counting(1);
    let folder = deep("long", LONG);
    let given = with_long_names(&folder, &call);
    ensure(given[2].len() == LONG, || format!("the path has {} bytes", given[2].len()))?;
    let said = folder.run_with(&given);
    let after = call.by_reference();
    ensure(said.status == 0 && said.output == line(&after.run) && said.error.is_empty(), || format!("{said:?}"))?;
    ensure(folder.get("results_") == after.results && folder.entries().len() == 4, || "it is not run".to_string())?;
    let folder = deep("too_long", TOO_LONG);
    let given = with_long_names(&folder, &call);
    let before = folder.entries();
    is_error(&folder.run_with(&given), "")?;
    is_unchanged(&folder, &before)
}

/// The longest name whose new file and lock can be made, and longer ones.
fn long_names() -> Result<(), String> {
    let call = counting(1);
    for (length, is_run) in [(250, true), (252, false), (255, false)] {
        let folder = Folder::with("long_names", &call);
        let name = "r".repeat(length);
        fs::rename(folder.at("results"), folder.at(&name)).map_err(|error| error.to_string())?;
        let mut given = folder.arguments("3");
        given[2] = folder.path(&name);
        let before = folder.entries();
        let said = folder.run_with(&given);
        if is_run {
            let made = said.status == 0 && folder.get(&name) == call.by_reference().results;
            ensure(made && folder.entries().len() == 4, || format!("{said:?}"))?;
        } else {
            is_error(&said, "")?;
            is_unchanged(&folder, &before)?;
        }
    }
    Ok(())
}

/// A run in a folder of this name with all files under names that end in it.
fn run_named(place: &str, name: &[u8]) -> Result<(Said, Folder, Call), String> {
    let call = counting(1);
    let folder = Folder::new(place).inner(OsStr::from_bytes(name));
    folder.write(&call);
    for file in FILES {
        fs::rename(folder.at(file), folder.at(odd(file, name))).map_err(|error| error.to_string())?;
    }
    let mut given: Vec<_> = FILES.iter().map(|file| folder.at(odd(file, name)).into_os_string()).collect();
    given.push("3".into());
    Ok((folder.run_with(&given), folder, call))
}

fn odd(file: &str, name: &[u8]) -> std::ffi::OsString {
    OsStr::from_bytes(&[file.as_bytes(), name].concat()).to_os_string()
}

fn odd_names() -> Result<(), String> {
    let names: [&[u8]; 9] = [
        b" two  words ",
        b"\"'`",
        b"$HOME$(true)",
        b"*?[a]",
        b"back\\slash\\n",
        b"-n",
        b"%s%d",
        b"\xff\xfe",
        b"~;&|<>",
    ];
    for name in names {
        let (said, folder, call) = run_named("odd", name)?;
        let shown = name.escape_ascii();
        let after = call.by_reference();
        ensure(said.status == 0 && said.output == line(&after.run) && said.error.is_empty(), || {
            format!("{shown}: {said:?}")
        })?;
        ensure(folder.get(odd("results", name)) == after.results, || format!("{shown}: the results are others"))?;
        ensure(folder.get(odd("state", name)) == state_text(&after.run.state), || {
            format!("{shown}: the state is another")
        })?;
        ensure(folder.entries().len() == 4, || format!("{shown}: left {:?}", folder.entries().keys()))?;
    }
    Ok(())
}

/// Such a name may be refused, but no other file may be taken for it.
fn line_feeds() -> Result<(), String> {
    for name in [&b"\n"[..], b"\n\n", b"a\nb"] {
        let (said, folder, call) = run_named("line_feeds", name)?;
        let shown = name.escape_ascii();
        let after = call.by_reference();
        let results = if said.status == 0 { &after.results } else { &call.results };
        let state = if said.status == 0 { after.run.state } else { call.state };
        ensure(said.status == 0 || said.status == 2 && !said.error.is_empty(), || format!("{shown}: {said:?}"))?;
        let held = folder.get(odd("results", name)) == *results && folder.get(odd("state", name)) == state_text(&state);
        ensure(held && folder.entries().len() == 4, || format!("{shown}: {:?}", folder.entries().keys()))?;
    }
    Ok(())
}

/// Names in the current folder, with a dash or not.
fn relative() -> Result<(), String> {
    let call = counting(1);
    let folder = Folder::with("relative", &call);
    let plain = said(run_listing().args(FILES).arg("3").current_dir(folder.place()));
    is_plain_answer(&folder, &call, &plain)?;
    let folder = Folder::with("relative", &call);
    let dashed = FILES.map(|name| format!("./-{name}"));
    FILES
        .iter()
        .zip(&dashed)
        .try_for_each(|(name, dashed)| fs::rename(folder.at(name), folder.at(dashed)))
        .map_err(|error| error.to_string())?;
    let said = said(run_listing().args(&dashed).arg("3").current_dir(folder.place()));
    let after = call.by_reference();
    ensure(said.status == 0 && said.output == line(&after.run) && said.error.is_empty(), || format!("{said:?}"))?;
    ensure(folder.get("-results") == after.results && folder.entries().len() == 4, || "it is not run".to_string())?;
    let checked = crate::process::said(check_listing().arg("./-listing").current_dir(folder.place()));
    ensure(checked.status == 0 && checked.error.is_empty(), || format!("{checked:?}"))
}

/// Both wrappers by these names, in a folder with a call's files.
fn both_wrappers(folder: &Folder, call: &Call, run: &mut Command, check: &mut Command) -> Result<(), String> {
    folder.write(call);
    is_plain_answer(folder, call, &said(run.args(folder.arguments(&call.budget.to_string()))))?;
    let checked = said(check.arg(folder.at("listing")));
    let line = printed(&reference::check(&call.listing));
    ensure(checked.status == 0 && checked.output.as_bytes() == line, || format!("{checked:?}"))
}

fn through_link() -> Result<(), String> {
    let (folder, links, call) = (Folder::new("linked"), Folder::new("linked_wrappers"), counting(1));
    for name in ["run-listing", "check-listing"] {
        symlink(program(name), links.at(format!("{name}.1"))).expect("a link can be made");
        symlink(format!("{name}.1"), links.at(name)).expect("a link can be made");
    }
    let by_path = |name: &str| Command::new(links.at(name));
    both_wrappers(&folder, &call, &mut by_path("run-listing"), &mut by_path("check-listing"))?;
    let path = format!("{}:{}", links.place().display(), std::env::var("PATH").unwrap_or_default());
    let by_name = |name: &str| {
        let mut command = Command::new("bash");
        command.args(["-c", "exec \"$0\" \"$@\"", name]).env("PATH", &path).current_dir("/");
        command
    };
    both_wrappers(&folder, &call, &mut by_name("run-listing"), &mut by_name("check-listing"))
}

/// From the root folder, from the repository by a relative path, and where CDPATH would lead elsewhere.
fn from_elsewhere() -> Result<(), String> {
    let (folder, call) = (Folder::new("elsewhere"), counting(1));
    let top = program("run-listing").parent().expect("it is in a folder").to_path_buf();
    let at = |place: &str, wrapper: String| {
        let mut command = Command::new("bash");
        command.arg(wrapper).current_dir(top.join(place)).env("CDPATH", &top);
        command
    };
    for (place, prefix) in [("", ""), ("", "./"), ("target", "../"), ("", "target/../")] {
        let by = |name: &str| at(place, format!("{prefix}{name}"));
        both_wrappers(&folder, &call, &mut by("run-listing"), &mut by("check-listing"))?;
    }
    let (mut run, mut check) = (run_listing(), check_listing());
    both_wrappers(&folder, &call, run.current_dir("/"), check.current_dir("/"))
}

/// A command line of bash with the wrapper as `$0` and the arguments after it.
fn by_bash(words: &str, wrapper: &str, given: &[String]) -> Said {
    said(Command::new("bash").arg("-c").arg(words).arg(program(wrapper)).args(given))
}

fn run_from_pipes() -> Result<(), String> {
    let lines = [
        "\"$0\" <(cat \"$1\") <(cat \"$2\") \"$3\" \"$4\" \"$5\"",
        "cat \"$1\" | \"$0\" /dev/stdin \"$2\" \"$3\" \"$4\" \"$5\"",
        "cat \"$2\" | \"$0\" \"$1\" /dev/stdin \"$3\" \"$4\" \"$5\"",
        "\"$0\" \"$1\" /dev/stdin \"$3\" \"$4\" \"$5\" <\"$2\"",
        "\"$0\" <(sleep 0.2; cat \"$1\") /dev/stdin \"$3\" \"$4\" \"$5\" <\"$2\"",
    ];
    for words in lines {
        let call = viability(20);
        let folder = Folder::with("pipes", &call);
        let said = by_bash(words, "run-listing", &folder.arguments("20"));
        is_plain_answer(&folder, &call, &said).map_err(|why| format!("{words}: {why}"))?;
    }
    let empty = Call { trays: Vec::new(), ..counting(1) };
    let folder = Folder::with("pipes", &empty);
    let said = by_bash("\"$0\" \"$1\" /dev/null \"$3\" \"$4\" \"$5\"", "run-listing", &folder.arguments("3"));
    is_plain_answer(&folder, &empty, &said)?;
    agrees(&folder, &viability(20)).map(drop)
}

fn check_from_pipes() -> Result<(), String> {
    let given = [root().join("examples/c05.lst"), root().join("examples/viability.lst")]
        .map(|path| path.to_string_lossy().into_owned());
    let line =
        |path: &String| String::from_utf8_lossy(&printed(&check(&fs::read(path).unwrap_or_default()))).into_owned();
    for words in [
        "\"$0\" <(cat \"$1\")",
        "cat \"$1\" | \"$0\" /dev/stdin",
        "\"$0\" /dev/stdin <\"$1\"",
        "\"$0\" <(sleep 0.2; cat \"$1\")",
    ] {
        let said = by_bash(words, "check-listing", &given);
        ensure(said.status == 0 && said.output == line(&given[0]) && said.error.is_empty(), || {
            format!("{words}: {said:?}")
        })?;
    }
    let said = by_bash("\"$0\" <(cat \"$1\") <(cat \"$2\")", "check-listing", &given);
    let answers: Vec<&str> =
        said.output.lines().filter_map(|line| line.split_once(": ")).map(|(_, line)| line).collect();
    let due: Vec<String> = given.iter().map(line).collect();
    ensure(
        said.status == 0 && answers.len() == 2 && answers.iter().zip(&due).all(|(a, b)| *a == b.trim_end_matches('\n')),
        || format!("{said:?}"),
    )
}

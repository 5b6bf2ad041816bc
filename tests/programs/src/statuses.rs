//! The statuses of both wrappers: 0, 1 and 2, each with its message where one is due.

use crate::expect::{ensure, is_error, is_unchanged, Test};
use crate::folder::{check_listing, Folder};
use crate::process::{said, Said};
use crate::routines::viability;
use lines::listing;
use reference::{check, printed};

pub fn tests() -> Vec<Test> {
    vec![
        ("statuses of a run", of_runs),
        ("statuses of one listing checked", of_one_listing),
        ("statuses of several listings checked", of_several),
        ("a listing that cannot be read", cannot_be_read),
    ]
}

fn of_runs() -> Result<(), String> {
    let folder = Folder::with("statuses", &viability(0));
    let is = |said: &Said, word: &str, status: i32| {
        let told = said.output.starts_with(word) && said.output.len() == 40 && said.status == status;
        ensure(told && said.error.is_empty() == (status == 0), || format!("{said:?} for {word}"))
    };
    is(&folder.run(20), "PAUS", 0)?;
    is(&folder.run(100), "STOP", 0)?;
    is(&folder.run(0), "STOP", 0)?;
    folder.put("listing", &listing("JUMP _ _ _ 1"));
    is(&folder.run(20), "FAIL", 1)?;
    folder.put("state", b"no state");
    is_error(&folder.run(20), "state")
}

/// Three listings: two that pass, one with claims and one without, and one that is turned back.
fn with_listings(name: &str) -> Folder {
    let folder = Folder::new(name);
    folder.put("passed", &listing("STOP"));
    folder.put("claimed", &listing("LEAS 0 _ _ _ _ 1; DIVF 1 2 _ _ 0 0; STOP"));
    folder.put("refused", &listing("DIVF 1 2 _ _ 0 0; STOP"));
    folder
}

fn checked(folder: &Folder, names: &[&str]) -> Said {
    said(check_listing().args(names.iter().map(|name| folder.path(name))))
}

fn of_one_listing() -> Result<(), String> {
    let folder = with_listings("statuses_one");
    let before = folder.entries();
    for (name, status) in [("passed", 0), ("claimed", 0), ("refused", 1)] {
        let said = checked(&folder, &[name]);
        let line = printed(&check(&folder.get(name)));
        ensure(said.output.as_bytes() == line && said.status == status, || format!("{name}: {said:?}"))?;
        ensure(said.error.is_empty() == (status == 0), || format!("{name}: {said:?}"))?;
    }
    is_unchanged(&folder, &before)
}

/// A line for each listing that can be read, with its name; the status is the greatest.
fn of_several() -> Result<(), String> {
    let folder = with_listings("statuses_several");
    let cases: [(&[&str], i32); 6] = [
        (&["passed", "claimed", "passed"], 0),
        (&["passed", "refused"], 1),
        (&["refused", "passed"], 1),
        (&["missing", "passed"], 2),
        (&["refused", "missing", "passed"], 2),
        (&["missing", "refused"], 2),
    ];
    for (names, status) in cases {
        let there = names.iter().filter(|name| folder.has(name));
        let line = |name: &&str| String::from_utf8_lossy(&printed(&check(&folder.get(name)))).into_owned();
        let output: String = there.map(|name| format!("{}: {}", folder.path(name), line(name))).collect();
        let said = checked(&folder, names);
        ensure(said.output == output && said.status == status, || format!("{names:?}: {said:?}, not {output:?}"))?;
        let told = names
            .iter()
            .all(|name| said.error.contains(&folder.path(name)) == (folder.has(name) == (*name == "refused")));
        ensure(told, || format!("{names:?}: its messages {said:?}"))?;
    }
    Ok(())
}

fn cannot_be_read() -> Result<(), String> {
    let folder = with_listings("statuses_unread");
    is_error(&said(&mut check_listing()), "usage")?;
    is_error(&said(check_listing().arg("--steps")), "usage")?;
    is_error(&said(check_listing().arg("--steps").arg(folder.path("missing"))), "missing")?;
    is_error(&checked(&folder, &["missing"]), "missing")?;
    is_error(&checked(&folder, &["."]), &folder.path("."))?;
    is_error(&said(check_listing().arg("")), "")
}

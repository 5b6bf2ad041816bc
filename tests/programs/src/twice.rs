//! The same file given twice, or a file whose name the run needs itself: refused, and nothing is changed.

use crate::expect::{is_error, is_unchanged, Test};
use crate::folder::{Folder, FILES};
use crate::routines::counting;
use std::fs;
use std::os::unix::fs::symlink;

pub fn tests() -> Vec<Test> {
    vec![
        ("the same file twice by one path", || each_pair("same", |folder, name| folder.path(name))),
        ("the same file twice by another path", || each_pair("other", other_path)),
        ("the same file twice by a link", || each_pair("link", linked)),
        ("the same file twice by a hard link", || each_pair("hard", hard_linked)),
        ("a name that the run needs", || needed_names("needed", false)),
        ("a link to a name that the run needs", || needed_names("needed_link", true)),
    ]
}

fn other_path(folder: &Folder, name: &str) -> String {
    folder.inner("within");
    folder.path(&format!("within/.././{name}"))
}

fn linked(folder: &Folder, name: &str) -> String {
    symlink(folder.at(name), folder.at("alias")).expect("a link can be made");
    folder.path("alias")
}

fn hard_linked(folder: &Folder, name: &str) -> String {
    fs::hard_link(folder.at(name), folder.at("alias")).expect("a link can be made");
    folder.path("alias")
}

/// Each two of the arguments: the one that keeps its file, and the one that is given the same. The second is the one that
/// a wrong run would read or change unseen.
const PAIRS: [(&str, &str); 6] = [
    ("listing", "trays"),
    ("listing", "results"),
    ("trays", "results"),
    ("state", "listing"),
    ("state", "trays"),
    ("state", "results"),
];

fn each_pair(name: &str, alias: fn(&Folder, &str) -> String) -> Result<(), String> {
    for (kept, replaced) in PAIRS {
        let folder = Folder::with(&format!("twice_{name}"), &counting(1));
        let alias = alias(&folder, kept);
        let names = FILES.iter().map(|file| if *file == replaced { alias.clone() } else { folder.path(file) });
        let given: Vec<String> = names.chain(["3".to_string()]).collect();
        is_refused(&folder, &given).map_err(|why| format!("{kept} as {replaced} too: {why}"))?;
    }
    Ok(())
}

fn is_refused(folder: &Folder, given: &[String]) -> Result<(), String> {
    let before = folder.entries();
    is_error(&folder.run_with(given), "")?;
    is_unchanged(folder, &before)
}

/// Gives each argument a name that a run over the results or the state needs for itself.
fn needed_names(name: &str, by_link: bool) -> Result<(), String> {
    for (of, suffix) in [("results", "new"), ("results", "lock"), ("state", "new"), ("state", "lock")] {
        for (at, other) in FILES.iter().enumerate().filter(|(_, other)| **other != of) {
            let folder = Folder::with(&format!("twice_{name}"), &counting(1));
            let needed = format!("{of}.{suffix}");
            fs::rename(folder.at(other), folder.at(&needed)).map_err(|error| error.to_string())?;
            let mut given = folder.arguments("3");
            given[at] = if by_link { linked(&folder, &needed) } else { folder.path(&needed) };
            is_refused(&folder, &given).map_err(|why| format!("{other} as {needed}: {why}"))?;
        }
    }
    Ok(())
}

//! Commands as README has them print what README shows.

use crate::expect::{ensure, Test};
use crate::folder::{program, root, Folder};
use crate::process::said;
use std::fs;
use std::os::unix::fs::symlink;
use std::process::Command;

pub fn tests() -> Vec<Test> {
    vec![
        ("README's run prints what README shows", || prints("readme_run", "Run a listing", 0, 0)),
        ("README's listing that is turned back, and redone", || prints("readme_line", "How to read the line", 0, 1)),
        ("README's division with one register, and with two", || prints("readme_same", "How to read the line", 1, 1)),
        ("README's seeds dealt into packets", || prints("readme_packets", "How to read the line", 2, 0)),
        ("README's empty points", || prints("readme_empty", "How to read the line", 3, 1)),
        ("README's records of 300 bytes", || prints("readme_records", "How to read the line", 4, 1)),
        ("README's run over records of 300 bytes", || prints("readme_photographs", "How to read the line", 5, 0)),
        ("README's steps of two listings", || prints("readme_steps", "How many steps will it need?", 0, 1)),
        ("README's run within its bound", || prints("readme_halves", "How many steps will it need?", 1, 0)),
    ]
}

/// The commands that a chapter shows after so many others, with this folder in place of /tmp, print the code that follows them and end
/// with the status.
fn prints(folder: &str, chapter: &str, others: usize, status: i32) -> Result<(), String> {
    let text = fs::read_to_string(root().join("README.md")).expect("README.md is there");
    let (_, text) = text.split_once(&format!("\n## {chapter}\n")).ok_or("README has no such chapter")?;
    let mut codes = text.split("\n\n").filter_map(code).skip(2 * others);
    let (commands, lines) = codes.next().zip(codes.next()).ok_or("README shows nothing")?;
    let folder = Folder::new(folder);
    for name in ["run-listing", "check-listing"] {
        symlink(program(name), folder.at(name)).expect("a link can be made");
    }
    symlink(root().join("examples"), folder.at("examples")).expect("a link can be made");
    let commands = commands.replace("/tmp", &folder.path(""));
    let said = said(Command::new("bash").arg("-e").arg("-c").arg(&commands).current_dir(folder.place()));
    ensure(said.status == status && said.output == lines, || format!("{}{}", said.error, said.output))
}

/// A paragraph of README that is code, as it is typed or printed.
fn code(paragraph: &str) -> Option<String> {
    let lines: Option<Vec<&str>> = paragraph.trim_matches('\n').lines().map(|line| line.strip_prefix("    ")).collect();
    lines.map(|lines| lines.join("\n") + "\n")
}

//! The programs built on first use, with a toolchain that stands in for the real one and proves nothing.

use crate::expect::{ensure, is_error, Test};
use crate::folder::{program, Folder};
use crate::process::{start, Running};
use lines::listing;
use std::env;
use std::fs;
use std::ops::Deref;
use std::path::Path;
use std::process::Command;

/// Takes a moment, says that a crate is proved, and puts the program that was built before in its place.
const TOOLCHAIN: &str =
    "#!/bin/sh\necho \"$@\" >>../../calls\nsleep 0.3\nexec >&2\necho 'rt: chose --jobs 2 for model'\n\
    echo 'logic=proved functions=1'\nmkdir -p out\ncp ../../built out/check_listing\n\
    echo 'rt: running out/check_listing; to give it other input, run that file yourself'\n";
const FAILING: &str = "#!/bin/sh\necho 'fn model::f: not proved' >&2\nexit 1\n";

pub fn tests() -> Vec<Test> {
    vec![
        ("two callers on first use build once", two_callers),
        ("a program that cannot be built", cannot_be_built),
        ("a program that is current is not built", current),
    ]
}

/// A copy of the repository. Its list of crates goes with the test: the real toolchain takes no second one in a repository.
struct Repository(Folder);

impl Deref for Repository {
    type Target = Folder;

    fn deref(&self) -> &Folder {
        &self.0
    }
}

impl Drop for Repository {
    fn drop(&mut self) {
        let _ = fs::remove_file(self.at("crates.txt"));
    }
}

/// A copy of the repository with the checker's wrapper, a listing, no program, and this toolchain.
fn repository(name: &str, toolchain: Option<&str>) -> Repository {
    let folder = Repository(Folder::new(name));
    for wrapper in ["check-listing", "build-program"] {
        fs::copy(program(wrapper), folder.at(wrapper)).expect("the wrapper is there");
    }
    fs::copy(program("target/bin/check_listing"), folder.at("built")).expect("the program is there");
    folder.inner("crates/check_listing").put("source", b"");
    folder.put("crates.txt", b"check_listing:\n");
    folder.put("listing", &listing("STOP"));
    if let Some(text) = toolchain {
        folder.inner("tools").put("rt", text.as_bytes());
        folder.set_mode("tools/rt", 0o755);
    }
    folder
}

/// The wrapper with this toolchain in the place of the real one.
fn started(folder: &Folder) -> Running {
    let path = env::var("PATH").unwrap_or_default();
    let others = path.split(':').filter(|place| !Path::new(place).join("rt").exists());
    let path = [folder.path("tools")].into_iter().chain(others.map(str::to_string)).collect::<Vec<_>>().join(":");
    start(Command::new(folder.at("check-listing")).arg(folder.at("listing")).env("PATH", path))
}

fn builds(folder: &Folder) -> usize {
    String::from_utf8_lossy(&folder.get("calls")).lines().count()
}

fn two_callers() -> Result<(), String> {
    let folder = repository("building", Some(TOOLCHAIN));
    let callers = [started(&folder), started(&folder)];
    let said = callers.map(Running::finish);
    let answered = said.iter().all(|said| said.status == 0 && said.output.starts_with("PASS"));
    ensure(answered && builds(&folder) == 1, || format!("{} builds: {said:?}", builds(&folder)))?;
    ensure(said.iter().any(|said| said.error.contains("model")), || format!("no line for a crate: {said:?}"))
}

/// The toolchain fails, or is not there.
fn cannot_be_built() -> Result<(), String> {
    for toolchain in [Some(FAILING), None] {
        let folder = repository("building_not", toolchain);
        is_error(&started(&folder).finish(), "check_listing")?;
    }
    Ok(())
}

/// One call builds, the next does not, and one after a source was changed does.
fn current() -> Result<(), String> {
    let folder = repository("building_again", Some(TOOLCHAIN));
    for due in [1, 1, 2, 2] {
        let said = started(&folder).finish();
        ensure(said.status == 0 && builds(&folder) == due, || {
            format!("{} builds, not {due}: {said:?}", builds(&folder))
        })?;
        if due == 1 && said.error.is_empty() {
            std::thread::sleep(std::time::Duration::from_millis(20));
            folder.put("crates/check_listing/source", b"changed");
        }
    }
    Ok(())
}

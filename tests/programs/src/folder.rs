//! A folder with the four files of a run, and the program started over them.

use crate::process::{said, start, Running, Said};
use lines::line;
use reference::State;
use std::collections::BTreeMap;
use std::env;
use std::ffi::OsStr;
use std::fs;
use std::os::unix::fs::{MetadataExt, PermissionsExt};
use std::path::{Path, PathBuf};
use std::process::Command;
use trials::runs::Call;

/// The arguments of a run that are files, in their order.
pub const FILES: [&str; 4] = ["listing", "trays", "results", "state"];

pub struct Folder {
    path: PathBuf,
}

/// What a name in a folder stands for: its kind and permissions, and its bytes where it is a file.
#[derive(Debug, Clone, PartialEq, Eq)]
pub struct Entry {
    pub mode: u32,
    pub bytes: Vec<u8>,
}

/// Everything in a folder, by name.
pub type Entries = BTreeMap<String, Entry>;

pub fn root() -> PathBuf {
    Path::new(env!("CARGO_MANIFEST_DIR")).join("../..").canonicalize().expect("the repository is there")
}

/// A program of the repository, or of the folder that PROGRAMS names.
pub fn program(name: &str) -> PathBuf {
    env::var_os("PROGRAMS").map_or_else(root, PathBuf::from).join(name)
}

pub fn run_listing() -> Command {
    Command::new(program("run-listing"))
}

pub fn check_listing() -> Command {
    Command::new(program("check-listing"))
}

/// A state as the program reads and writes it: a JUMP to the point, and a SETC for each register.
pub fn state_text(state: &State) -> Vec<u8> {
    let mut text = line("JUMP", [None, None, None, Some(state.point.into()), None, None]).to_vec();
    for (v, value) in state.registers.iter().enumerate() {
        text.extend(line("SETC", [Some(v as i128), None, None, None, None, Some((*value).into())]));
    }
    text
}

impl Folder {
    /// An empty folder of this name for the tests.
    pub fn new(name: &str) -> Folder {
        let path = root().join("target/program_tests").join(name);
        let _ = fs::remove_dir_all(&path);
        fs::create_dir_all(&path).expect("the folder can be made");
        Folder { path }
    }

    /// A folder for one call's files.
    pub fn with(name: &str, call: &Call) -> Folder {
        let folder = Folder::new(name);
        folder.write(call);
        folder
    }

    /// A folder inside this one.
    pub fn inner(&self, name: impl AsRef<Path>) -> Folder {
        let path = self.path.join(name);
        fs::create_dir_all(&path).expect("the folder can be made");
        Folder { path }
    }

    pub fn place(&self) -> &Path {
        &self.path
    }

    pub fn at(&self, name: impl AsRef<Path>) -> PathBuf {
        self.path.join(name)
    }

    pub fn path(&self, name: &str) -> String {
        self.at(name).to_string_lossy().into_owned()
    }

    pub fn write(&self, call: &Call) {
        let state = state_text(&call.state);
        let texts = [&call.listing, &call.trays, &call.results, &state];
        FILES.iter().zip(texts).for_each(|(name, bytes)| self.put(name, bytes));
    }

    pub fn put(&self, name: impl AsRef<Path>, bytes: &[u8]) {
        fs::write(self.at(name), bytes).expect("the folder can be written");
    }

    pub fn get(&self, name: impl AsRef<Path>) -> Vec<u8> {
        fs::read(self.at(name)).unwrap_or_default()
    }

    pub fn has(&self, name: impl AsRef<Path>) -> bool {
        fs::symlink_metadata(self.at(name)).is_ok()
    }

    pub fn set_mode(&self, name: &str, mode: u32) {
        fs::set_permissions(self.at(name), fs::Permissions::from_mode(mode)).expect("the mode can be set");
    }

    /// The permissions of a file; 0 where it is missing.
    pub fn mode(&self, name: &str) -> u32 {
        fs::metadata(self.at(name)).map_or(0, |found| found.mode() & 0o7777)
    }

    /// Whether the files hold this state and these results.
    pub fn holds(&self, state: &State, results: &[u8]) -> bool {
        self.get("state") == state_text(state) && self.get("results") == results
    }

    /// Whether nothing is there but the four files of a run.
    pub fn has_four_files(&self) -> bool {
        let entries = self.entries();
        entries.len() == FILES.len() && FILES.iter().all(|name| entries.contains_key(*name))
    }

    /// Everything that is there; a folder or a link counts by its kind alone.
    pub fn entries(&self) -> Entries {
        let names = fs::read_dir(&self.path).into_iter().flatten().flatten();
        names.map(|entry| (entry.file_name().to_string_lossy().into_owned(), entry_of(&entry.path()))).collect()
    }

    pub fn arguments(&self, budget: &str) -> Vec<String> {
        let mut given: Vec<String> = FILES.iter().map(|name| self.path(name)).collect();
        given.push(budget.to_string());
        given
    }

    /// The wrapper over the four files.
    pub fn command(&self, budget: u32) -> Command {
        let mut command = run_listing();
        command.args(FILES.map(|name| self.at(name))).arg(budget.to_string());
        command
    }

    pub fn run(&self, budget: u32) -> Said {
        said(&mut self.command(budget))
    }

    pub fn start(&self, budget: u32) -> Running {
        start(&mut self.command(budget))
    }

    pub fn run_with(&self, given: &[impl AsRef<OsStr>]) -> Said {
        said(run_listing().args(given))
    }
}

fn entry_of(path: &Path) -> Entry {
    let found = fs::symlink_metadata(path).expect("the entry is there");
    let bytes = if found.is_file() { fs::read(path).unwrap_or_default() } else { Vec::new() };
    Entry { mode: found.mode(), bytes }
}

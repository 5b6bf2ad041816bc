//! The library that breaks a run off at one of its calls: compiled once, and preloaded into a command.

use crate::folder::root;
use std::fs;
use std::path::PathBuf;
use std::process::Command;
use std::sync::OnceLock;

/// How a call is broken, as the head of interpose.c says.
#[derive(Clone, Copy, PartialEq, Eq)]
pub enum How {
    Kill,
    After,
    Part,
    Alone,
    Stop,
    Fail,
    Fails,
    Slow,
    Term,
}

/// The processes whose calls are counted.
#[derive(Clone, Copy, PartialEq, Eq)]
pub enum Whose {
    Everyone,
    Program,
    Wrapper,
}

/// The file that the processes of a run share with the test.
pub struct Breaker {
    shared: PathBuf,
}

/// Where the shared file says whether a call was broken, where its log begins, and its size.
const BROKEN: usize = 12;
const LOG: usize = 16;
const SHARED_BYTES: usize = LOG + (1 << 16);

impl How {
    fn name(self) -> &'static str {
        match self {
            How::Kill => "kill",
            How::After => "after",
            How::Part => "part",
            How::Alone => "alone",
            How::Stop => "stop",
            How::Fail => "fail",
            How::Fails => "fails",
            How::Slow => "slow",
            How::Term => "term",
        }
    }

    /// Whether the wrapper is killed too.
    pub fn ends_all(self) -> bool {
        matches!(self, How::Kill | How::After | How::Part)
    }
}

/// The compiled library.
fn library() -> &'static PathBuf {
    static LIBRARY: OnceLock<PathBuf> = OnceLock::new();
    LIBRARY.get_or_init(|| {
        let library = root().join("target/interpose.so");
        let compiled = Command::new("cc")
            .args(["-shared", "-fPIC", "-O2", "-o"])
            .arg(&library)
            .arg(root().join("tests/programs/interpose.c"))
            .arg("-ldl")
            .status();
        assert!(compiled.is_ok_and(|status| status.success()), "interpose.c can be compiled");
        library
    })
}

impl Breaker {
    pub fn new(name: &str) -> Breaker {
        Breaker { shared: root().join("target/program_tests").join(format!("{name}.calls")) }
    }

    /// Has the command broken at its call of this number.
    pub fn arm(&self, command: &mut Command, how: How, whose: Whose, at: u32) {
        fs::write(&self.shared, [0; SHARED_BYTES]).expect("the file can be written");
        let name = match whose {
            Whose::Everyone => "",
            Whose::Program => "run_listing",
            Whose::Wrapper => "bash",
        };
        command
            .env("LD_PRELOAD", library())
            .env("BREAK_FILE", &self.shared)
            .env("BREAK_AT", at.to_string())
            .env("BREAK_HOW", how.name())
            .env("BREAK_IN", name);
    }

    /// The calls up to the one that was broken, in words; all of them where the run made fewer.
    pub fn calls(&self) -> Vec<String> {
        let shared = fs::read(&self.shared).expect("the file is there");
        let log = shared[LOG..].split(|byte| *byte == 0).next().unwrap_or_default();
        String::from_utf8_lossy(log).lines().map(str::to_string).collect()
    }

    /// The call that was broken, in words; none where the run made fewer.
    pub fn broken(&self) -> Option<String> {
        let shared = fs::read(&self.shared).expect("the file is there");
        (shared[BROKEN] != 0).then(|| self.calls().pop().unwrap_or_default())
    }
}

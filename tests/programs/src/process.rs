//! A program started in a process group of its own, and what it said. None is waited for without end.

use std::fs;
use std::io::Read;
use std::os::unix::process::{CommandExt, ExitStatusExt};
use std::path::Path;
use std::process::{Child, Command, ExitStatus, Stdio};
use std::sync::mpsc::{channel, Receiver};
use std::thread;
use std::time::{Duration, Instant};

pub const TERM: i32 = 15;
pub const INT: i32 = 2;
pub const HUP: i32 = 1;
pub const KILL: i32 = 9;
pub const CONT: i32 = 18;

/// A program that takes longer hangs, or something that it started does. Its status is then this.
const LONGEST: Duration = Duration::from_secs(20);
const LATE: i32 = -1;

/// What a signal does where nobody has said otherwise.
const DEFAULT: usize = 0;

extern "C" {
    fn kill(process: i32, signal: i32) -> i32;
    fn signal(signal: i32, does: usize) -> usize;
}

/// What the program said, and its status: 128 and the signal's number where a signal ended it.
#[derive(Debug, Clone, PartialEq, Eq)]
pub struct Said {
    pub output: String,
    pub error: String,
    pub status: i32,
}

/// A program that is running, and its two texts as they come to their end.
pub struct Running {
    child: Child,
    output: Receiver<Vec<u8>>,
    error: Receiver<Vec<u8>>,
    since: Instant,
}

/// Reads to the end in a thread of its own.
fn reading(from: Option<impl Read + Send + 'static>) -> Receiver<Vec<u8>> {
    let (sender, receiver) = channel();
    thread::spawn(move || {
        let mut bytes = Vec::new();
        if let Some(mut from) = from {
            let _ = from.read_to_end(&mut bytes);
        }
        let _ = sender.send(bytes);
    });
    receiver
}

/// Lets the signals that end a program end it, though whoever started these tests may have them ignored: a shell
/// cannot trap a signal that it was started to ignore.
fn hears_signals(command: &mut Command) {
    let restore = || {
        for number in [TERM, INT, HUP] {
            // SAFETY: signal() takes any number, and may be called between fork and exec.
            unsafe { signal(number, DEFAULT) };
        }
        Ok(())
    };
    // SAFETY: the closure only calls signal(), which may be called between fork and exec.
    unsafe { command.pre_exec(restore) };
}

/// Starts the program. Its output is read unless the command says where it goes.
pub fn start_with(command: &mut Command, output: Stdio) -> Running {
    hears_signals(command);
    let mut child = command.process_group(0).stdout(output).stderr(Stdio::piped()).spawn().expect("it can be started");
    let (output, error) = (reading(child.stdout.take()), reading(child.stderr.take()));
    Running { child, output, error, since: Instant::now() }
}

pub fn start(command: &mut Command) -> Running {
    start_with(command, Stdio::piped())
}

pub fn said(command: &mut Command) -> Said {
    start(command).finish()
}

/// The status as a shell gives it.
fn number_of(status: ExitStatus) -> i32 {
    status.code().or(status.signal().map(|signal| 128 + signal)).unwrap_or(-1)
}

impl Running {
    fn id(&self) -> i32 {
        self.child.id() as i32
    }

    /// Sends a signal to the program alone.
    pub fn signal(&self, signal: i32) {
        send(self.id(), signal);
    }

    /// Sends a signal to the program and all that it started.
    pub fn signal_group(&self, signal: i32) {
        send(-self.id(), signal);
    }

    /// Waits until the program, and whatever has its output open, is at its end.
    pub fn finish(mut self) -> Said {
        let text = |from: &Receiver<Vec<u8>>| {
            let left = LONGEST.saturating_sub(self.since.elapsed());
            from.recv_timeout(left).map(|bytes| String::from_utf8_lossy(&bytes).into_owned())
        };
        let (output, error) = (text(&self.output), text(&self.error));
        let is_late = output.is_err() || error.is_err();
        if is_late {
            self.signal_group(KILL);
        }
        let status = self.child.wait().map_or(-1, number_of);
        let status = if is_late { LATE } else { status };
        let late = |_| "(it did not end in time)".to_string();
        Said { output: output.unwrap_or_else(late), error: error.unwrap_or_else(late), status }
    }

    /// Waits until one of the processes is stopped or the program is at its end, and answers whether one is stopped.
    pub fn comes_to_stop(&mut self) -> bool {
        let group = self.id();
        let start = Instant::now();
        while start.elapsed() < LONGEST && matches!(self.child.try_wait(), Ok(None)) {
            if is_stopped(group) {
                return true;
            }
            thread::sleep(Duration::from_millis(2));
        }
        false
    }

    /// Waits for the program alone, though something that it started may go on.
    pub fn wait(&mut self) -> i32 {
        self.child.wait().map_or(-1, number_of)
    }
}

/// Sends a signal to a process, or to a group where the number is negative.
pub fn send(process: i32, signal: i32) {
    // SAFETY: kill takes two numbers and touches no memory
    unsafe { kill(process, signal) };
}

fn all_processes() -> impl Iterator<Item = i32> {
    let entries = fs::read_dir("/proc").into_iter().flatten().flatten();
    entries.filter_map(|entry| entry.file_name().to_string_lossy().parse().ok())
}

/// The processes of this name that have this text among their arguments.
pub fn processes(name: &str, argument: &str) -> Vec<i32> {
    all_processes().filter(|number| is_process(*number, name, argument)).collect()
}

/// Whether a process of the group is stopped.
fn is_stopped(group: i32) -> bool {
    let group = group.to_string();
    all_processes().any(|number| {
        let text = fs::read_to_string(format!("/proc/{number}/stat")).unwrap_or_default();
        let words: Vec<&str> = text.rsplit(") ").next().unwrap_or_default().split(' ').collect();
        words.first() == Some(&"T") && words.get(2) == Some(&group.as_str())
    })
}

fn is_process(number: i32, name: &str, argument: &str) -> bool {
    let folder = Path::new("/proc").join(number.to_string());
    let words = fs::read(folder.join("cmdline")).unwrap_or_default();
    let text = String::from_utf8_lossy(&words).into_owned();
    let started = text.split('\0').next().unwrap_or_default();
    Path::new(started).file_name().is_some_and(|found| found == name) && text.contains(argument) && !is_ended(&folder)
}

/// Ended, and only not yet waited for.
fn is_ended(folder: &Path) -> bool {
    let text = fs::read_to_string(folder.join("stat")).unwrap_or_default();
    text.rsplit(") ").next().is_none_or(|rest| rest.is_empty() || rest.starts_with('Z'))
}

/// Waits until something holds, and answers whether it came to hold.
pub fn until(holds: impl Fn() -> bool) -> bool {
    let start = Instant::now();
    while start.elapsed() < LONGEST {
        if holds() {
            return true;
        }
        thread::sleep(Duration::from_millis(2));
    }
    false
}

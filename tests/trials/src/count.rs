//! The tests of one program, counted.

use std::process::ExitCode;

#[derive(Default)]
pub struct Count {
    passed: u64,
    failed: u64,
}

impl Count {
    /// Counts one test and says what went wrong.
    pub fn test(&mut self, outcome: Result<(), String>) {
        match outcome {
            Ok(()) => self.passed += 1,
            Err(why) => {
                self.failed += 1;
                println!("failed: {why}");
            }
        }
    }

    /// The last line of a program, and its status.
    pub fn finish(&self) -> ExitCode {
        println!("{} passed, {} failed", self.passed, self.failed);
        if self.failed == 0 {
            ExitCode::SUCCESS
        } else {
            ExitCode::FAILURE
        }
    }
}

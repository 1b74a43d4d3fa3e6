//! How a run ends: lines on standard error, each with the program's name before it, and the exit status. Status 1 is kept for a later use.
use std::io::{self, Write};
use std::process::ExitCode;

pub const DONE: u8 = 0;
pub const FAILED: u8 = 2;

pub struct Ending {
    pub lines: Vec<String>,
    pub status: u8,
}

impl Ending {
    /// Done, and these warnings beside it.
    pub fn done(warnings: Vec<String>) -> Ending {
        Ending {
            lines: warnings,
            status: DONE,
        }
    }

    pub fn failed(line: String) -> Ending {
        Ending {
            lines: vec![line],
            status: FAILED,
        }
    }

    pub fn told(self, program: &str) -> ExitCode {
        say(&self.lines.iter().map(|line| format!("{program}: {line}\n")).collect::<String>());
        ExitCode::from(self.status)
    }
}

/// Where standard error can't be written to there is nobody left to tell.
pub fn say(text: &str) {
    let _ = io::stderr().write_all(text.as_bytes());
}

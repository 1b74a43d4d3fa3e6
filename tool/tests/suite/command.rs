//! Runs the program with words and standard input.
use std::io::Write;
use std::process::{Command, Stdio};

pub struct Done {
    pub status: i32,
    pub output: Vec<u8>,
    pub errors: String,
}

pub fn table(words: &[&str], input: &[u8]) -> Done {
    let mut command = Command::new(env!("CARGO_BIN_EXE_table"));
    let pipes = command.args(words).stdin(Stdio::piped()).stdout(Stdio::piped()).stderr(Stdio::piped());
    let mut child = pipes.spawn().expect("the program starts");
    // A program that stops before it has read all shuts the pipe. That is no failure here.
    let _ = child.stdin.take().expect("the pipe is there").write_all(input);
    let done = child.wait_with_output().expect("the program ends");
    Done {
        status: done.status.code().expect("an exit status"),
        output: done.stdout,
        errors: String::from_utf8(done.stderr).expect("the errors are text"),
    }
}

/// The output of a run that must succeed with no word on standard error but warnings.
pub fn output_of(words: &[&str], input: &[u8]) -> Vec<u8> {
    let done = table(words, input);
    let only_warnings = done
        .errors
        .lines()
        .all(|line| line.starts_with("table: ") && line.contains(": warning: "));
    assert!(done.status == 0 && only_warnings, "table {words:?}: {} {}", done.status, done.errors);
    done.output
}

pub fn text_of(words: &[&str], input: &[u8]) -> String {
    String::from_utf8(output_of(words, input)).expect("the output is text")
}

/// Asserts that the run fails with status 2 and this line, and writes nothing to standard output.
pub fn assert_fails(words: &[&str], input: &[u8], line: &str) {
    let done = table(words, input);
    assert_eq!(done.errors, format!("table: {line}\n"), "table {words:?}");
    assert_eq!((done.status, done.output.len()), (2, 0), "table {words:?}");
}

//! Inputs that cannot be read, and a standard output that cannot be written to. Status 2, and one line.
use crate::command::table;
use crate::samples::path;
use std::process::{Command, Output};

#[test]
fn a_file_that_cannot_be_read_is_one_line() {
    for command in ["make", "show", "picture"] {
        for file in ["no/such file", "/"] {
            let done = table(&[command, file], b"");
            assert_eq!((done.status, done.output.len()), (2, 0), "{command} {file}");
            assert!(done.errors.starts_with(&format!("table: cannot read {file}: ")), "{}", done.errors);
            assert_eq!(done.errors.lines().count(), 1);
        }
    }
}

/// Runs the program with the shell's redirections, which are what a closed stream needs.
fn redirected(words: &str, redirections: &str) -> Output {
    let line = format!("exec \"$0\" {words} {redirections}");
    let mut shell = Command::new("sh");
    let words = shell.args(["-c", &line, env!("CARGO_BIN_EXE_table"), &path("a", "txt"), &path("a", "table")]);
    words.output().expect("the shell runs")
}

#[test]
fn an_output_that_cannot_be_written_to_is_an_error() {
    for words in ["make \"$1\"", "show \"$2\"", "picture \"$1\"", "help"] {
        for (redirection, said) in [
            (">&-", "it is closed"),
            (">/dev/full", "No space left on device (os error 28)"),
            ("1</dev/null", "Bad file descriptor (os error 9)"),
        ] {
            let done = redirected(words, redirection);
            assert_eq!(done.status.code(), Some(2), "{words} {redirection}");
            let line = String::from_utf8(done.stderr).unwrap();
            assert_eq!(line, format!("table: cannot write standard output: {said}\n"), "{words} {redirection}");
        }
        assert_eq!(redirected(words, ">/dev/null").status.code(), Some(0), "{words}");
        assert_eq!(redirected(words, "1<>/dev/null").status.code(), Some(0), "{words}");
    }
}

#[test]
fn an_input_that_is_closed_is_an_error() {
    let done = redirected("make -", "<&-");
    assert_eq!(done.status.code(), Some(2));
    let line = String::from_utf8(done.stderr).unwrap();
    assert_eq!(line, "table: cannot read standard input: it is closed\n");
}

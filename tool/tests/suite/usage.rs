//! The command line: right and wrong use.
use crate::command::{output_of, table};
use crate::samples::{bytes, path};

fn help() -> String {
    String::from_utf8(output_of(&["help"], b"")).unwrap()
}

#[test]
fn help_names_every_command() {
    for command in ["table make FILE", "table show FILE", "table picture FILE", "table help"] {
        assert!(help().contains(command), "{command}");
    }
    let same: [&[&str]; 4] = [&["--help"], &["-h"], &["make", "--help"], &["make", "x", "-h"]];
    for words in same {
        assert_eq!(output_of(words, b""), help().into_bytes(), "{words:?}");
    }
}

/// No input is read that is not named, and no word is dropped.
#[test]
fn wrong_use_is_told_with_the_usage_on_standard_error() {
    let wrong: [(&[&str], &str); 13] = [
        (&[], "no command is named"),
        (&["verdict", "a"], "unknown command verdict"),
        (&["Make", "a"], "unknown command Make"),
        (&["", "a"], "unknown command "),
        (&["-", "a"], "unknown command -"),
        (&["make"], "no file is named"),
        (&["show"], "no file is named"),
        (&["picture", ""], "no file is named"),
        (&["make", "a", "b"], "more than one file is named"),
        (&["help", "a"], "unknown command help"),
        (&["-x"], "unknown option -x"),
        (&["make", "--quiet", "a"], "unknown option --quiet"),
        (&["--", "--help"], "unknown command --help"),
    ];
    for (words, line) in wrong {
        let done = table(words, &bytes("a", "txt"));
        let expected = format!("table: {line}\n{}", help());
        assert_eq!((done.status, done.output.len(), done.errors), (2, 0, expected), "{words:?}");
    }
}

#[test]
fn the_end_of_the_options() {
    let file = path("a", "txt");
    let right: [&[&str]; 3] = [&["--", "make", &file], &["make", "--", &file], &["make", &file, "--"]];
    for words in right {
        assert_eq!(output_of(words, b""), bytes("a", "table"), "{words:?}");
    }
    let done = table(&["make", "--", "-x"], b"");
    assert!(done.errors.starts_with("table: cannot read -x: "), "{}", done.errors);
}

//! Wrong texts: the line and what is said of it. Status 2, and nothing on standard output.
use crate::command::{assert_fails, table};
use crate::samples::path;

const NAME: &str = "a name of letters, digits, '_', '.' and '-' that does not begin with a digit or '-'";

/// The text, the line of its error, and the message.
type Case<'a> = (&'a str, usize, &'a str);

fn check(cases: &[Case]) {
    for (text, line, message) in cases {
        for command in ["make", "picture"] {
            assert_fails(&[command, "-"], text.as_bytes(), &format!("standard input line {line}: {message}"));
        }
    }
}

#[test]
fn lines_of_neither_kind() {
    check(&[
        ("", 1, "found the end of the text, expected a \"state\" line"),
        ("# nothing\n\n", 3, "found the end of the text, expected a \"state\" line"),
        ("sets 2\n", 2, "found the end of the text, expected a \"state\" line"),
        ("\nstates 0 -> 0\n", 2, "found \"states\", expected \"sets\" or \"state\""),
        ("0 -> 0", 1, "found \"0\", expected \"sets\" or \"state\""),
    ]);
}

#[test]
fn sets_lines() {
    check(&[
        ("sets\nstate 0 -> 0", 1, "found nothing after \"sets\", expected a count or names"),
        ("sets 5\nstate 0 -> 0", 1, "found the count \"5\", expected at most 4 sets"),
        ("sets a b c d e\nstate 0 -> 0", 1, "found 5 names, expected at most 4 sets"),
        ("sets 1\n\nsets 1\nstate 0 -> 0", 3, "found a second \"sets\" line, expected one"),
        ("sets 1\nstate 0 -> 0\nsets 1", 3, "found a second \"sets\" line, expected one"),
        ("state 0 -> 0\nsets 1", 2, "found \"sets\" after a state, expected it before the states"),
        ("sets a b a\nstate 0 -> 0", 1, "found the set name \"a\" twice, expected each name once"),
        ("sets 2 a\nstate 0 -> 0", 1, &format!("found the set name \"2\", expected {NAME}")),
        ("sets 2a\nstate 0 -> 0", 1, &format!("found the set name \"2a\", expected {NAME}")),
        ("sets a,b\nstate 0 -> 0", 1, &format!("found the set name \"a,b\", expected {NAME}")),
        ("sets -1\nstate 0 -> 0", 1, &format!("found the set name \"-1\", expected {NAME}")),
        ("sets a -\nstate 0 -> 0", 1, &format!("found the set name \"-\", expected {NAME}")),
        (
            "sets a goal\nstate 0 -> 0",
            1,
            "found the set name \"goal\", expected a name other than sets, state, start, goal and in",
        ),
    ]);
}

#[test]
fn states() {
    let order = "for states are numbered in the order of their lines";
    check(&[
        ("state", 1, "found no word after \"state\", expected the state's number or name"),
        ("state -> 0", 1, "found no word after \"state\", expected the state's number or name"),
        (
            "state 0 -> 0\nstate 2 -> 0",
            2,
            &format!("found the state number \"2\", expected 1, {order}"),
        ),
        ("state 1 -> 0", 1, &format!("found the state number \"1\", expected 0, {order}")),
        (
            "state 0->0",
            1,
            &format!("found the state name \"0->0\", expected the number 0 or {NAME}"),
        ),
        ("state - -> 0", 1, &format!("found the state name \"-\", expected the number 0 or {NAME}")),
        (
            "state -1 -> 0",
            1,
            &format!("found the state name \"-1\", expected the number 0 or {NAME}"),
        ),
        (
            "state start -> 0",
            1,
            "found the state name \"start\", expected the number 0 or a name other than sets, state, start, goal and in",
        ),
        (
            "state a -> a\n# c\nstate a -> 0",
            3,
            "found the state name \"a\" again, expected a name that line 1 does not have",
        ),
    ]);
}

#[test]
fn marks() {
    check(&[
        (
            "state 0 0 1",
            1,
            "found no \"->\", expected \"->\", with blanks around it, before the successors",
        ),
        (
            "state a->a",
            1,
            &format!("found the state name \"a->a\", expected the number 0 or {NAME}"),
        ),
        ("state 0 gaol -> 0", 1, "found \"gaol\", expected \"start\", \"goal\", \"in\" or \"->\""),
        ("state 0 start goal start -> 0", 1, "found \"start\" twice, expected it once"),
        ("state 0 goal goal -> 0", 1, "found \"goal\" twice, expected it once"),
        ("sets 2\nstate 0 in 0 start in 1 -> 0", 2, "found \"in\" twice, expected it once"),
        ("sets 2\nstate 0 in -> 0", 2, "found nothing after \"in\", expected one or more sets"),
        (
            "sets 2\nstate 0 in 2 -> 0",
            2,
            "found the unknown set \"2\", expected a set's name or a number below 2",
        ),
        (
            "sets a b\nstate 0 in a c -> 0",
            2,
            "found the unknown set \"c\", expected a set's name or a number below 2",
        ),
        (
            "sets a b\nstate 0 in b 1 -> 0",
            2,
            "found the set \"1\" (number 1) twice, expected each set once",
        ),
        (
            "state 0 in 0 -> 0",
            1,
            "found the unknown set \"0\", expected no set, for the table has none",
        ),
    ]);
}

#[test]
fn successors() {
    check(&[
        ("state 0 ->", 1, "found nothing after \"->\", expected one or more successors"),
        ("state 0 -> 0 -> 0", 1, "found a second \"->\", expected one in a line"),
        (
            "state 0 -> 1\nstate 1 -> 0 2",
            2,
            "found the unknown state \"2\", expected a state's name or a number below 2",
        ),
        (
            "state a -> b\nstate b -> c",
            2,
            "found the unknown state \"c\", expected a state's name or a number below 2",
        ),
        (
            "state 0 -> 0 goal",
            1,
            "found the unknown state \"goal\", expected a state's name or a number below 1",
        ),
        (
            "state 0 -> 99999999999999999999",
            1,
            "found the unknown state \"99999999999999999999\", expected a state's name or a number below 1",
        ),
        (
            "state a -> b 1\nstate b -> a",
            1,
            "found the successor \"1\" (number 1) twice, expected each successor once",
        ),
    ]);
}

#[test]
fn too_many_states() {
    let lines = |count: usize| (0..count).map(|state| format!("state {state} -> 0\n")).collect::<String>();
    assert_eq!(table(&["make", "-"], lines(64).as_bytes()).status, 0);
    check(&[(&lines(65), 65, "found 65 states, expected at most 64")]);
}

#[test]
fn too_many_edges() {
    let row: String = (0..16).map(|to| format!(" {to}")).collect();
    let lines = |last: &str| {
        (0..64)
            .map(|state| format!("state {state} ->{row}{}\n", if state == 63 { last } else { "" }))
            .collect::<String>()
    };
    assert_eq!(table(&["make", "-"], lines("").as_bytes()).status, 0);
    check(&[(&lines(" 16"), 64, "found 1025 edges up to this line, expected at most 1024")]);
}

/// A zero byte makes the file a table file for `picture`, so these two are asked of `make` only.
#[test]
fn what_is_no_text() {
    let zero = "found a zero byte, expected text (is this a table file?)";
    assert_fails(&["make", "-"], b"state 0 -> 0\n# \0\n", &format!("standard input line 2: {zero}"));
    let file = path("a", "table");
    assert_fails(&["make", &file], b"", &format!("{file} line 1: {zero}"));
    check_bytes(
        b"state 0 -> 0\n\xff",
        2,
        "found bytes that are not UTF-8, expected text (a table file has a zero byte, and this has none)",
    );
}

fn check_bytes(bytes: &[u8], line: usize, message: &str) {
    for command in ["make", "picture"] {
        assert_fails(&[command, "-"], bytes, &format!("standard input line {line}: {message}"));
    }
}

#[test]
fn a_control_character_does_not_break_the_line() {
    assert_fails(
        &["make", "-"],
        b"a\x1bb",
        "standard input line 1: found \"a\\u{1b}b\", expected \"sets\" or \"state\"",
    );
}

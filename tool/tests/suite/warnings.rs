//! The warnings: on standard error, one line each, for accepted tables only. The status and the output stay as they are.
use crate::command::{output_of, table};
use crate::plain::Plain;
use crate::random::Random;
use crate::samples::bytes;
use table::read_file::read_file;
use table::warnings::warnings;

const NO_START: &str = "no state is a start: there is no run, so the goal holds whatever the edges are";
const NO_GOAL: &str = "no state has the goal: every fair loop that a start reaches is a hang";

fn empty(set: &str) -> String {
    format!("the set {set} has no member: no loop is fair, so the goal holds")
}

/// What each command warns of, asked with the text and with its table file, which has no names.
fn check(text: &str, of_text: &[&str], of_file: &[&str]) {
    let file = output_of(&["make", "-"], text.as_bytes());
    let runs = [
        ("make", text.as_bytes(), of_text),
        ("picture", text.as_bytes(), of_text),
        ("picture", &file, of_file),
        ("show", &file, of_file),
    ];
    for (command, input, expected) in runs {
        let done = table(&[command, "-"], input);
        let lines: String = expected.iter().map(|line| format!("table: standard input: warning: {line}\n")).collect();
        assert_eq!(done.errors, lines, "{command} of {text}");
        assert_eq!(done.status, 0, "{command} of {text}");
    }
}

#[test]
fn a_table_with_nothing_to_warn_of() {
    check("sets a\nstate x start in a -> y x\nstate y goal -> y", &[], &[]);
    // No loop avoids the goal here. That is a real "holds".
    check("state x start goal -> x", &[], &[]);
}

#[test]
fn no_start_is_said_once() {
    check("state x goal -> y\nstate y -> y", &[NO_START], &[NO_START]);
}

#[test]
fn no_goal() {
    check("state x start -> x", &[NO_GOAL], &[NO_GOAL]);
}

#[test]
fn sets_without_members() {
    let text = "sets a b c\nstate x start goal in b -> x";
    check(text, &[&empty("a"), &empty("c")], &[&empty("0"), &empty("2")]);
    check("state x -> x", &[NO_START, NO_GOAL], &[NO_START, NO_GOAL]);
    check(
        "sets 1\nstate x -> x",
        &[NO_START, NO_GOAL, &empty("0")],
        &[NO_START, NO_GOAL, &empty("0")],
    );
}

#[test]
fn states_that_no_start_reaches() {
    let one = "state x start goal -> x\nstate y -> x";
    check(one, &["no start reaches the state y"], &["no start reaches the state 1"]);
    let two = "state x start goal -> x\nstate y -> 2 x\nstate 2 -> y";
    check(two, &["no start reaches the 2 states y 2"], &["no start reaches the 2 states 1 2"]);
    let reached_by_the_other = "state x goal start -> x\nstate y start -> z\nstate z -> w\nstate w -> w";
    check(reached_by_the_other, &[], &[]);
}

#[test]
fn a_long_list_is_cut_with_a_count() {
    let lost = |count: usize| (1..=count).map(|state| format!("state s{state} -> 0\n")).collect::<String>();
    let text = |count: usize| format!("state 0 start goal -> 0\n{}", lost(count));
    let (of_text, of_file) = ("s1 s2 s3 s4 s5 s6 s7 s8", "1 2 3 4 5 6 7 8");
    let all = |list: &str| format!("no start reaches the 8 states {list}");
    check(&text(8), &[&all(of_text)], &[&all(of_file)]);
    let cut = |list: &str| format!("no start reaches 63 states: {list} and 55 more");
    check(&text(63), &[&cut(of_text)], &[&cut(of_file)]);
    let long = format!("state 0 start goal -> 0\nstate {} -> 0", "x".repeat(99));
    let line = format!("no start reaches the state {}..", "x".repeat(40));
    check(&long, &[&line], &["no start reaches the state 1"]);
}

#[test]
fn a_refused_table_and_a_wrong_text_have_no_warnings() {
    let mut refused = bytes("k", "table");
    *refused.last_mut().unwrap() |= 64;
    for (command, input) in [("show", refused.as_slice()), ("make", b"state x -> x y")] {
        let done = table(&[command, "-"], input);
        assert_eq!((done.status, done.errors.contains("warning")), (2, false), "{}", done.errors);
    }
}

/// Whether state `to` stands on a run from a start, by as many rounds over all edges as there are states.
fn reached(plain: &Plain) -> Vec<bool> {
    let mut reached: Vec<bool> = (0..plain.rows.len()).map(|state| plain.starts(state)).collect();
    for _ in 0..plain.rows.len() {
        for (from, to) in plain.edges() {
            reached[to] |= reached[from];
        }
    }
    reached
}

#[test]
fn random_tables() {
    let mut random = Random::new(5);
    let mut counts = [0; 4];
    for _ in 0..2000 {
        let plain = random.table();
        let states = 0..plain.rows.len();
        let starts = states.clone().any(|state| plain.starts(state));
        let goal = states.clone().any(|state| plain.goal(state));
        let empty = (0..plain.sets).filter(|set| !states.clone().any(|state| plain.members(state).contains(set)));
        let (empty, lost) = (empty.count(), reached(&plain).iter().filter(|reached| !**reached).count());
        let found = warnings(&read_file(&plain.bytes()).unwrap());
        let said = |part: &str| found.iter().filter(|line| line.contains(part)).count();
        let expected = [usize::from(!starts), usize::from(!goal), empty, usize::from(starts && lost > 0)];
        assert_eq!(
            [said(NO_START), said(NO_GOAL), said("has no member"), said("no start reaches ")],
            expected,
            "{found:?}"
        );
        assert_eq!(found.len(), expected.iter().sum::<usize>());
        counts.iter_mut().zip(expected).for_each(|(count, more)| *count += more);
    }
    assert!(counts.iter().all(|count| *count > 100), "{counts:?}");
}

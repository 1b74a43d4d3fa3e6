//! Every example: its text makes its table file, the file shows its text, and its verdict is what the library says.
use crate::command::{output_of, text_of};
use crate::plain::Plain;
use crate::samples::{bytes, names, names_with, path, text};
use lasso::Found;
use std::collections::HashMap;

#[test]
fn each_example_has_its_three_files() {
    let names = names();
    for name in [
        "a",
        "b",
        "c",
        "d",
        "e",
        "f",
        "g",
        "h",
        "i",
        "j",
        "k",
        "l",
        "starving-arbiter",
        "fair-arbiter",
        "bridge",
    ] {
        assert!(names.iter().any(|found| found == name), "{name}");
    }
    assert_eq!(names_with("table"), names);
    assert_eq!(names_with("verdict"), names);
}

#[test]
fn the_text_makes_the_table_file() {
    for name in names() {
        assert_eq!(output_of(&["make", &path(&name, "txt")], b""), bytes(&name, "table"), "{name}");
        assert_eq!(
            output_of(&["make", "-"], &bytes(&name, "txt")),
            bytes(&name, "table"),
            "{name} on standard input"
        );
    }
}

#[test]
fn the_table_file_shows_the_text() {
    for name in names() {
        let shown = text_of(&["show", &path(&name, "table")], b"");
        assert_eq!(shown, without_names(&text(&name, "txt")), "{name}");
        assert_eq!(shown, text_of(&["show", "-"], &bytes(&name, "table")), "{name} on standard input");
    }
}

/// The twelve tables of docs/RULES.md, "Tables by hand", are written without names: comments dropped, the text itself is what show writes.
#[test]
fn the_small_examples_are_canonical() {
    for name in names().iter().filter(|name| name.len() == 1) {
        let text = text(name, "txt");
        let lines = text.lines().filter(|line| !line.starts_with('#'));
        let rest: String = lines.map(|line| format!("{line}\n")).collect();
        assert_eq!(text_of(&["show", &path(name, "table")], b""), rest, "{name}");
    }
}

/// Comments dropped, names put into numbers, lists sorted: word by word, without the tool's reader.
fn without_names(text: &str) -> String {
    let lines: Vec<Vec<&str>> = text
        .lines()
        .map(|line| line.split('#').next().unwrap().split_whitespace().collect())
        .collect();
    let state_names = lines.iter().filter(|words| words.first() == Some(&"state")).map(|words| words[1]);
    let states: HashMap<&str, usize> = state_names.enumerate().map(|(number, name)| (name, number)).collect();
    let set_names = lines
        .iter()
        .find(|words| words.first() == Some(&"sets"))
        .map_or(vec![], |words| words[1..].to_vec());
    let sets: HashMap<&str, usize> = match set_names.as_slice() {
        [count] if count.parse::<usize>().is_ok() => (0..count.parse().unwrap()).map(|set| (["0", "1", "2", "3"][set], set)).collect(),
        names => names.iter().enumerate().map(|(number, name)| (*name, number)).collect(),
    };
    let mut plain = Plain {
        sets: sets.len(),
        marks: vec![],
        rows: vec![],
    };
    for words in lines.iter().filter(|words| words.first() == Some(&"state")) {
        let arrow = words.iter().position(|word| *word == "->").unwrap();
        let bit = |word: &str| match word {
            "start" => 1,
            "goal" => 2,
            "in" => 0,
            set => 4 << sets[set],
        };
        plain.marks.push(words[2..arrow].iter().map(|word| bit(word)).sum());
        let mut row: Vec<usize> = words[arrow + 1..].iter().map(|word| states[word]).collect();
        row.sort_unstable();
        plain.rows.push(row);
    }
    plain.text()
}

/// Some editors put a mark before a text.
#[test]
fn a_byte_order_mark_is_skipped() {
    for name in names() {
        let text = [b"\xef\xbb\xbf", bytes(&name, "txt").as_slice()].concat();
        assert_eq!(output_of(&["make", "-"], &text), bytes(&name, "table"), "{name}");
    }
}

/// The block of the README that shows the text form is one, by its first word.
#[test]
fn the_text_form_of_the_readme_is_right() {
    let readme = text("README", "md");
    let block = readme
        .split("```\n")
        .find(|block| block.starts_with("sets "))
        .expect("the block is there");
    let shown = "sets 2\nstate 0 start -> 0 1\nstate 1 in 0 -> 1 2\nstate 2 goal in 0 1 -> 0\n";
    assert_eq!(text_of(&["show", "-"], &output_of(&["make", "-"], block.as_bytes())), shown);
}

#[test]
fn the_verdict_is_what_the_library_says() {
    for name in names() {
        assert_eq!(verdict_of(&bytes(&name, "table")), text(&name, "verdict"), "{name}");
    }
}

/// The lines that the program `verdict` prints. Reads docs/RULES.md, "What the programs print".
pub fn verdict_of(table: &[u8]) -> String {
    let sheet = lasso::quote(table).expect("an accepted table");
    let mut workspace = vec![0; 2 * sheet.slots];
    let mut report = vec![0; sheet.slots];
    let numbers = |numbers: &[usize]| numbers.iter().map(usize::to_string).collect::<Vec<_>>().join(" ");
    let board = b"ABCDEFGH"
        .get(sheet.board)
        .map_or("none".to_string(), |letter| char::from(*letter).to_string());
    let mut text = format!("size {}\n", numbers(&[sheet.slots, sheet.edges, sheet.bytes]));
    text += &format!("board {board}\nmembers {}\n", numbers(&sheet.members));
    text += &match lasso::search(table, &mut workspace, &mut report).expect("an accepted search") {
        Found::Holds => "holds\n".to_string(),
        Found::Lasso { k, l } => {
            let run: Vec<usize> = report[..=k].iter().map(|state| *state as usize).collect();
            format!("lasso {k} {l}\nrun {}\n", numbers(&run))
        }
    };
    text
}

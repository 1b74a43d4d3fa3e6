//! Make and show undo each other on every accepted table.
use crate::command::{output_of, text_of};
use crate::plain::Plain;
use crate::random::Random;
use table::read_file::read_file;
use table::read_text::read_text;
use table::write_file::write_file;
use table::write_text::write_text;

fn made(text: &str) -> Vec<u8> {
    write_file(&read_text(text.as_bytes()).expect("a right text"))
}

fn shown(bytes: &[u8]) -> String {
    write_text(&read_file(bytes).expect("an accepted table"))
}

fn check(table: &Plain) {
    let (bytes, text) = (table.bytes(), table.text());
    assert_eq!(shown(&bytes), text);
    assert_eq!(made(&text), bytes);
}

#[test]
fn random_tables_by_direct_calls() {
    let mut random = Random::new(2);
    for _ in 0..3000 {
        let table = random.table();
        check(&table);
        let text = random.text_of(&table);
        assert_eq!(made(&text), table.bytes(), "{text}");
    }
}

#[test]
fn random_tables_through_the_program() {
    let mut random = Random::new(3);
    for _ in 0..200 {
        let table = random.table();
        let text = text_of(&["show", "-"], &table.bytes());
        assert_eq!(text, table.text());
        assert_eq!(output_of(&["make", "-"], text.as_bytes()), table.bytes());
    }
}

#[test]
fn tables_at_the_limits() {
    let full = |states: usize, row: usize| Plain {
        sets: 4,
        marks: vec![0b11_1111; states],
        rows: vec![(states - row..states).collect(); states],
    };
    for table in [full(1, 1), full(64, 16), full(32, 32), full(64, 1)] {
        check(&table);
    }
}

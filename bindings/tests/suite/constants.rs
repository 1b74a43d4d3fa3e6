//! The constants of the wrappers and those of the header, both ways.
use crate::header::{self, Constant};
use lasso::{BOARDS, MARK_SETS, VERSION};

/// Constants of the wrappers that the header has by the same name.
macro_rules! named {
    ($($name:ident)*) => { vec![$((stringify!($name).to_string(), lasso::$name as usize)),*] };
}

fn shared() -> Vec<Constant> {
    named![
        KIND_CLIENT KIND_TRANSLATED MARK_START MARK_GOAL MARK_BAD MOST_STATES MOST_EDGES MOST_SETS MOST_TABLE_BYTES MOST_SLOTS MOST_SLOT_EDGES
        MOST_WORKSPACE_WORDS MOST_REPORT_WORDS MOST_OUTPUT_BYTES NO_BOARD
    ]
}

/// Those that have another form in the header.
fn put_otherwise() -> Vec<Constant> {
    let sets = MARK_SETS.iter().enumerate();
    let marks = sets.map(|(set, bit)| (format!("MARK_SET_{set}"), *bit as usize));
    marks.chain([("BOARDS".to_string(), BOARDS.len())]).collect()
}

fn sorted(mut constants: Vec<Constant>) -> Vec<Constant> {
    constants.sort();
    constants
}

#[test]
fn the_header_has_the_same_constants() {
    let groups = ["KIND_CLIENT", "MARK_START", "MOST_STATES", "BOARDS"];
    let in_header: Vec<Constant> = groups.iter().flat_map(|name| header::enum_with(name)).collect();
    assert_eq!(sorted(in_header), sorted([shared(), put_otherwise()].concat()));
}

#[test]
fn no_constant_of_the_wrappers_is_left_out() {
    let source = include_str!("../../src/limits.rs");
    let written = source.lines().filter_map(|line| line.strip_prefix("pub const "));
    let names = written.map(|said| said.split_once(':').expect("a name and a type").0);
    for name in names.filter(|name| !["VERSION", "MARK_SETS"].contains(name)) {
        assert!(shared().iter().any(|(found, _)| found == name), "{name}");
    }
}

#[test]
fn one_version() {
    assert_eq!(header::defined("VERSION"), format!("\"{VERSION}\""));
    let numbers = ["MAJOR", "MINOR", "PATCH"].map(|part| header::defined(&format!("VERSION_{part}")));
    assert_eq!(numbers.join("."), VERSION);
}

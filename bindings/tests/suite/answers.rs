//! The words of an answer as the header names them, against the wrappers: the functions are called here as a C program calls them.
use crate::header::{enums, value};
use crate::tables::uneven;
use lasso::{Found, Record, Refusal, Sheet, Table};

extern "C" {
    fn lasso_open(table: *const u8, table_length: usize, answer: *mut usize) -> u32;
    fn lasso_quote(table: *const u8, table_length: usize, answer: *mut usize) -> u32;
    fn lasso_search(
        table: *const u8,
        table_length: usize,
        workspace: *mut u32,
        workspace_length: usize,
        report: *mut u32,
        report_length: usize,
        answer: *mut usize,
    ) -> u32;
    fn lasso_translate(table: *const u8, table_length: usize, output: *mut u8, output_length: usize, answer: *mut usize) -> u32;
    fn lasso_step(
        table: *const u8,
        table_length: usize,
        s: usize,
        t: usize,
        live: bool,
        v: usize,
        next: usize,
        wish: bool,
        answer: *mut usize,
    ) -> u32;
}

/// A word that no answer has.
const UNSET: usize = usize::MAX;
/// More words than any answer has.
const ROOM: usize = 16;

/// The words that a call sets. They are as many as the header says, and the call is not refused.
fn words(count: &str, call: impl FnOnce(*mut usize) -> u32) -> Vec<usize> {
    let mut words = [UNSET; ROOM];
    assert_eq!(call(words.as_mut_ptr()) as usize, value("DONE"));
    assert_eq!(words.iter().filter(|word| **word != UNSET).count(), value(count));
    words[..value(count)].to_vec()
}

#[test]
fn open() {
    let table = uneven();
    // SAFETY: here and below, the lengths are those of the buffers, and the answer has room.
    let a = words("OPEN_WORDS", |answer| unsafe { lasso_open(table.as_ptr(), table.len(), answer) });
    let named = Table {
        states: a[value("STATES")],
        edges: a[value("EDGES")],
        sets: a[value("SETS")],
    };
    assert_eq!(lasso::open(&table), Ok(named));
    assert_eq!((named.states, named.edges, named.sets), (5, 6, 4));
}

#[test]
fn quote() {
    let table = uneven();
    let a = words("QUOTE_WORDS", |answer| unsafe { lasso_quote(table.as_ptr(), table.len(), answer) });
    let members = value("MEMBERS");
    let named = Sheet {
        slots: a[value("SLOTS")],
        edges: a[value("SLOT_EDGES")],
        bytes: a[value("BYTES")],
        board: a[value("BOARD")],
        members: [a[members], a[members + 1], a[members + 2], a[members + 3]],
    };
    assert_eq!(lasso::quote(&table), Ok(named));
    assert_eq!((named.slots, named.edges, named.bytes, named.board), (960, 1_344, 10_208, 2));
    assert_eq!(named.members, [1, 2, 3, 4]);
}

#[test]
fn search() {
    let table = uneven();
    let (mut workspace, mut report) = ([0; 1_920], [9; 960]);
    let a = words("SEARCH_WORDS", |answer| unsafe {
        let (workspace, report) = (workspace.as_mut_ptr(), report.as_mut_ptr());
        lasso_search(table.as_ptr(), table.len(), workspace, 1_920, report, 960, answer)
    });
    let (k, l) = (a[value("K")], a[value("L")]);
    assert_eq!((a[value("FOUND")], k, l), (1, 3, 2));
    assert_eq!(report[..5], [0, 1, 2, 3, 9]);
    assert_eq!(lasso::search(&table, &mut workspace, &mut report), Ok(Found::Lasso { k, l }));
}

#[test]
fn translate() {
    let table = uneven();
    let mut output = [0; 10_208];
    let a = words("TRANSLATE_WORDS", |answer| unsafe {
        lasso_translate(table.as_ptr(), table.len(), output.as_mut_ptr(), output.len(), answer)
    });
    assert_eq!(a[value("WRITTEN")], 10_208);
    assert_eq!(lasso::translate(&table, &mut output), Ok(10_208));
}

#[test]
fn step() {
    let table = uneven();
    let a = words("STEP_WORDS", |answer| unsafe {
        lasso_step(table.as_ptr(), table.len(), 3, 5, true, 0, 2, true, answer)
    });
    let named = Record {
        s: a[value("S")],
        t: a[value("T")],
        live: a[value("LIVE")] == 1,
        v: a[value("V")],
    };
    let before = Record {
        s: 3,
        t: 5,
        live: true,
        v: 0,
    };
    assert_eq!(lasso::step(&table, before, 2, true), Ok(named));
    assert_eq!((named.s, named.t, named.live, named.v), (2, 3, true, 15));
}

#[test]
fn a_refusals_place() {
    let mut table = uneven();
    *table.last_mut().expect("there are marks") = lasso::MARK_BAD;
    let mut words = [UNSET; ROOM];
    // SAFETY: as above.
    let number = unsafe { lasso_open(table.as_ptr(), table.len(), words.as_mut_ptr()) };
    let place = words[value("PLACE")];
    assert_eq!(lasso::open(&table), Err(Refusal { number, place }));
    assert_eq!(place, 4);
}

#[test]
fn every_enum_of_the_header_is_held_by_a_test() {
    let known = ["DONE", "KIND_CLIENT", "MARK_START", "MOST_STATES", "BOARDS", "PLACE"];
    let counted = ["OPEN_WORDS", "QUOTE_WORDS", "SEARCH_WORDS", "TRANSLATE_WORDS", "STEP_WORDS"];
    let is_known = |name: &String| known.contains(&name.as_str()) || counted.contains(&name.as_str());
    for constants in enums() {
        assert!(constants.iter().any(|(name, _)| is_known(name)), "{constants:?}");
    }
}

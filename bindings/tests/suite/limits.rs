//! The limits, against the library: the largest table needs just the largest buffers, and anything larger is refused.
use crate::tables::{filled, table};
use lasso::number::*;
use lasso::*;

fn largest() -> Vec<u8> {
    filled(MOST_STATES, MOST_EDGES, MOST_SETS)
}

fn refused<T: std::fmt::Debug>(answer: Result<T, Refusal>) -> u32 {
    answer.expect_err("it is refused").number
}

#[test]
fn the_largest_table_is_quoted() {
    let table = largest();
    assert_eq!(table.len(), MOST_TABLE_BYTES);
    let sheet = quote(&table).expect("the table is accepted");
    assert_eq!((sheet.slots, sheet.edges, sheet.bytes), (MOST_SLOTS, MOST_SLOT_EDGES, MOST_OUTPUT_BYTES));
}

#[test]
fn the_largest_table_needs_the_largest_buffers() {
    let table = largest();
    let (mut workspace, mut report) = (vec![0; MOST_WORKSPACE_WORDS], vec![0; MOST_REPORT_WORDS]);
    assert_eq!(refused(search(&table, &mut workspace[1..], &mut report)), SHORT_WORKSPACE);
    assert_eq!(refused(search(&table, &mut workspace, &mut report[1..])), SHORT_REPORT);
    assert_eq!(search(&table, &mut workspace, &mut report), Ok(Found::Holds));
    let mut output = vec![0; MOST_OUTPUT_BYTES];
    assert_eq!(refused(translate(&table, &mut output[1..])), SHORT_OUTPUT);
    assert_eq!(translate(&table, &mut output), Ok(MOST_OUTPUT_BYTES));
    assert_eq!(output[..4], KIND_TRANSLATED.to_le_bytes());
}

#[test]
fn one_more_is_refused() {
    assert_eq!(refused(open(&filled(MOST_STATES + 1, MOST_EDGES, MOST_SETS))), WRONG_STATES);
    assert_eq!(refused(open(&filled(MOST_STATES, MOST_EDGES + 1, MOST_SETS))), WRONG_EDGES);
    assert_eq!(refused(open(&filled(MOST_STATES, MOST_EDGES, MOST_SETS + 1))), WRONG_SETS);
}

#[test]
fn the_marks_of_a_translation() {
    // One state with a self edge, without the goal and with it: tables c and d of docs/RULES.md, "Tables by hand".
    for goal in [0, MARK_GOAL] {
        let mut output = [0; 76];
        let table = table(0, &[vec![0]], &[MARK_START | goal]);
        assert_eq!(translate(&table, &mut output), Ok(output.len()));
        assert_eq!(output[72..], [MARK_BAD, 0, MARK_START, 0].map(|mark| mark | goal));
    }
}

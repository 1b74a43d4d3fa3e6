//! The comment of the header on the table file: its example is a table, and its ranges are the limits.
use crate::header;
use lasso::{MARK_SETS, MARK_START, MOST_EDGES, MOST_SETS, MOST_STATES};

#[test]
fn the_example_is_table_e() {
    let numbers = ["header", "row starts", "targets"].map(header::example).concat();
    let numbers = numbers.iter().flat_map(|number| (*number as u32).to_le_bytes());
    let marks = header::example("marks").into_iter().map(|mark| mark as u8);
    let table: Vec<u8> = numbers.chain(marks).collect();
    assert_eq!(table, include_bytes!("../../../examples/e.table"));
    assert!(header::text().contains(&format!("in {} bytes:", table.len())));
    assert_eq!(table[table.len() - 2..], [MARK_START, MARK_SETS[0]]);
}

#[test]
fn the_ranges_are_the_limits() {
    let edges = format!("{},{:03}", MOST_EDGES / 1000, MOST_EDGES % 1000);
    let ranges = [
        format!("n, from 1 to {MOST_STATES}\n"),
        format!("e, from 1 to {edges}\n"),
        format!("m, from 0 to {MOST_SETS}\n"),
    ];
    for range in ranges {
        assert!(header::text().contains(&range), "{range}");
    }
}

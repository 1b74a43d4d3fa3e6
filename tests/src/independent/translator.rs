//! The translated table's bytes ("The recorder", last paragraph, in the layout of "The table file").

use super::quote::quote;
use super::recorder::{is_bad, is_start, records, slot, step, Record};
use super::table::Table;

pub fn translate(table: &Table) -> Vec<u8> {
    let mut row_starts = vec![0];
    let mut targets = Vec::new();
    let mut marks = Vec::new();
    for (number, record) in records(table).enumerate() {
        assert_eq!(number, slot(table, record), "independent side: records out of the order of their slots");
        targets.extend(successors(table, record));
        row_starts.push(targets.len());
        marks.push(mark(table, record));
    }
    let bytes = write(&row_starts, &targets, &marks);
    let quote = quote(table);
    assert_eq!(
        (marks.len(), targets.len(), bytes.len()),
        (quote.slots, quote.edges, quote.bytes),
        "independent side: wrong size"
    );
    bytes
}

/// The slots that one step leads to. A wish makes a difference only where nothing is saved.
fn successors(table: &Table, record: Record) -> Vec<usize> {
    let wishes: &[bool] = if record.t == table.states() { &[false, true] } else { &[false] };
    let mut slots: Vec<usize> = table.successors[record.s]
        .iter()
        .flat_map(|&next| wishes.iter().map(move |&wish| slot(table, step(table, record, next, wish))))
        .collect();
    slots.sort_unstable();
    assert!(slots.windows(2).all(|pair| pair[0] < pair[1]), "independent side: two steps to one slot");
    slots
}

fn mark(table: &Table, record: Record) -> u8 {
    u8::from(is_start(table, record)) | u8::from(table.goal[record.s]) << 1 | u8::from(is_bad(table, record)) << 6
}

fn write(row_starts: &[usize], targets: &[usize], marks: &[u8]) -> Vec<u8> {
    let targets_at = 28 + 4 * row_starts.len();
    let header = [2, marks.len(), targets.len(), 0, 28, targets_at, targets_at + 4 * targets.len()];
    let numbers = header.iter().chain(row_starts).chain(targets);
    let mut bytes: Vec<u8> = numbers.flat_map(|&number| (number as u32).to_le_bytes()).collect();
    bytes.extend_from_slice(marks);
    bytes
}

//! Lines 9 to 13 of "Refusal list", for a table that is accepted. Their place is always 0.

use super::quote::Quote;
use super::recorder::Record;
use super::refusal::{reason_among, refused, Refused, PLAIN};
use super::table::Table;

pub fn search_refused(quote: &Quote, workspace_words: usize, report_words: usize) -> Option<Refused> {
    if workspace_words < 2 * quote.slots {
        Some(refused(9, 0, PLAIN))
    } else if report_words < quote.slots {
        Some(refused(10, 0, PLAIN))
    } else {
        None
    }
}

pub fn translate_refused(quote: &Quote, output_bytes: usize) -> Option<Refused> {
    (output_bytes < quote.bytes).then(|| refused(11, 0, PLAIN))
}

pub fn step_refused(table: &Table, record: Record, next: usize) -> Option<Refused> {
    let n = table.states();
    let reason = reason_among(&[
        (record.s >= n, "s not below n"),
        (next >= n, "s' not below n"),
        (record.t > n, "t above n"),
        (record.v >= table.bit_patterns(), "v not below 2^m"),
    ]);
    match reason {
        Some(reason) => Some(refused(12, 0, reason)),
        None if !table.has_edge(record.s, next) => Some(refused(13, 0, PLAIN)),
        None => None,
    }
}

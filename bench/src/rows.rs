//! The measured rows: each job on each of its tables, for all sides.

use crate::measure::{calls, side_by_side, Buffers, Calls, Method};
use crate::sides::{Side, Times, SIDES};
use crate::tables::cases::{self, Case};
use std::hint::black_box;

/// One line of the printed table. Times are nanoseconds a call.
pub struct Row {
    pub job: &'static str,
    pub table: String,
    pub times: Times,
}

pub const OPEN: &str = "open";
pub const QUOTE: &str = "quote";
pub const SEARCH: &str = "search";
pub const TRANSLATE: &str = "translate";
pub const STEP: &str = "step";

/// In the order in which they are printed.
pub const JOBS: [&str; 5] = [OPEN, QUOTE, SEARCH, TRANSLATE, STEP];

/// Measures all rows, job by job.
pub fn measured(method: Method, buffers: &mut Buffers) -> Vec<Row> {
    let mut rows = Vec::new();
    let mut add = |job, case: &Case, sides: [Calls; 3]| {
        let (table, times) = (case.name.clone(), side_by_side(method, buffers, sides));
        rows.push(Row { job, table, times });
    };
    for case in &cases::opened() {
        let open = |side: Side| calls(move |_| (side.open)(black_box(&case.table)));
        add(OPEN, case, SIDES.map(open));
    }
    for case in &cases::opened() {
        let quote = |side: Side| calls(move |_| (side.quote)(black_box(&case.table)));
        add(QUOTE, case, SIDES.map(quote));
    }
    for case in &cases::searched() {
        let search = |side: Side| calls(move |b| (side.search)(black_box(&case.table), black_box(&mut b.workspace), black_box(&mut b.report)));
        add(SEARCH, case, SIDES.map(search));
    }
    for case in &cases::translated() {
        let translate = |side: Side| calls(move |b| (side.translate)(black_box(&case.table), black_box(&mut b.output)));
        add(TRANSLATE, case, SIDES.map(translate));
    }
    for &(ref case, record, next) in &cases::stepped() {
        let step = |side: Side| calls(move |_| (side.step)(black_box(&case.table), black_box(record), black_box(next), black_box(true)));
        add(STEP, case, SIDES.map(step));
    }
    rows
}

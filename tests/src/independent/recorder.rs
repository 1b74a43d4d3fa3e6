//! "The recorder": records, their slot numbers, one step, and when a record is bad.

use super::table::Table;

#[derive(Clone, Copy, Debug, PartialEq, Eq)]
pub struct Record {
    pub s: usize,
    /// A state, or n for nothing.
    pub t: usize,
    pub live: bool,
    pub v: usize,
}

pub fn starting(table: &Table, s: usize) -> Record {
    Record {
        s,
        t: table.states(),
        live: false,
        v: 0,
    }
}

/// The next record, where s to `next` is an edge.
pub fn step(table: &Table, record: Record, next: usize, wish: bool) -> Record {
    let nothing = table.states();
    let t = if record.t == nothing && wish { record.s } else { record.t };
    let live = record.live || table.goal[record.s];
    let v = if t == nothing { record.v } else { record.v | table.bits_of(record.s) };
    Record { s: next, t, live, v }
}

pub fn is_bad(table: &Table, record: Record) -> bool {
    record.s == record.t && !record.live && record.v == table.bit_patterns() - 1
}

pub fn is_start(table: &Table, record: Record) -> bool {
    table.start[record.s] && record == starting(table, record.s)
}

pub fn slot(table: &Table, record: Record) -> usize {
    ((record.s * (table.states() + 1) + record.t) * 2 + usize::from(record.live)) * table.bit_patterns() + record.v
}

/// All records, in the order of their slot numbers.
pub fn records(table: &Table) -> impl Iterator<Item = Record> + '_ {
    let states = 0..table.states();
    states.flat_map(move |s| {
        let saved = 0..=table.states();
        saved.flat_map(move |t| {
            let flags = [false, true].into_iter();
            flags.flat_map(move |live| (0..table.bit_patterns()).map(move |v| Record { s, t, live, v }))
        })
    })
}

//! All jobs from several threads at once, on tables that the threads share.
use crate::tables::{filled, uneven};
use lasso::{Found, Record, Refusal, Sheet, Table};
use std::sync::Barrier;
use std::thread;

const THREADS: usize = 4;
const ROUNDS: usize = 100;

/// All that the five jobs answer of a table, and what they leave in the buffers.
#[derive(PartialEq, Eq)]
struct Answers {
    opened: Result<Table, Refusal>,
    quoted: Result<Sheet, Refusal>,
    found: Result<Found, Refusal>,
    workspace: Vec<u32>,
    report: Vec<u32>,
    written: Result<usize, Refusal>,
    output: Vec<u8>,
    moved: Vec<Result<Record, Refusal>>,
}

/// A refused table has no quote; it gets short buffers and two steps, and every job refuses it.
fn answers(table: &[u8]) -> Answers {
    let opened = lasso::open(table);
    let quoted = lasso::quote(table);
    let (slots, bytes) = quoted.map_or((1, 1), |sheet| (sheet.slots, sheet.bytes));
    let (mut workspace, mut report, mut output) = (vec![7; 2 * slots], vec![7; slots], vec![7; bytes]);
    let found = lasso::search(table, &mut workspace, &mut report);
    let written = lasso::translate(table, &mut output);
    let states = opened.map_or(2, |table| table.states);
    Answers {
        opened,
        quoted,
        found,
        workspace,
        report,
        written,
        output,
        moved: (0..states).map(|s| saving_step(table, s, states)).collect(),
    }
}

/// From state s, with nothing saved, to the state after it, if there is an edge.
fn saving_step(table: &[u8], s: usize, states: usize) -> Result<Record, Refusal> {
    let record = Record {
        s,
        t: states,
        live: false,
        v: 0,
    };
    lasso::step(table, record, (s + 1) % states, true)
}

/// Tables with a lasso and without, and one that is refused.
fn tables() -> Vec<Vec<u8>> {
    let mut refused = uneven();
    refused.pop();
    vec![uneven(), filled(1, 1, 0), filled(6, 32, 1), filled(12, 33, 2), filled(20, 40, 3), refused]
}

/// Each thread begins with another table, so that different tables are in work at the same time.
#[test]
fn each_thread_gets_the_answers_of_one() {
    let tables = tables();
    let alone: Vec<Answers> = tables.iter().map(|table| answers(table)).collect();
    let together = Barrier::new(THREADS);
    let work = |first: usize| {
        together.wait();
        for place in (0..ROUNDS * tables.len()).map(|turn| (first + turn) % tables.len()) {
            assert!(answers(&tables[place]) == alone[place], "table {place}");
        }
    };
    thread::scope(|scope| {
        let work = &work;
        for first in 0..THREADS {
            scope.spawn(move || work(first));
        }
    });
}

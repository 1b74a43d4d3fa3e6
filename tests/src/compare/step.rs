//! Compares step on records in and out of range, along edges and where there is none ("The recorder"; "Refusal list", lines 12 and 13).

use super::bench::{Bench, Stop};
use super::case::Case;
use super::library;
use super::table::Depth;
use crate::draw::random::Random;
use crate::independent::lengths::step_refused;
use crate::independent::recorder::{self, records, Record};
use crate::independent::refusal::Refusal;
use crate::independent::table::Table;

/// Up to this many calls, a sweep steps every record to every state with both wishes.
const ALL_STEPS_UP_TO: usize = 3_000;

pub fn compare(bench: &mut Bench, case: &Case, random: &mut Random, table: &Table, slots: usize, depth: Depth) -> Result<(), Stop> {
    let times = if depth == Depth::Few { 20 } else { 8 };
    for _ in 0..times {
        let (record, next) = draw(random, table);
        once(bench, case, table, record, next, random.chance(50))?;
    }
    if depth == Depth::Sweep && slots * table.states() * 2 <= ALL_STEPS_UP_TO {
        for record in records(table) {
            for next in 0..table.states() {
                once(bench, case, table, record, next, false)?;
                once(bench, case, table, record, next, true)?;
            }
        }
    }
    Ok(())
}

fn once(bench: &mut Bench, case: &Case, table: &Table, record: Record, next: usize, wish: bool) -> Result<(), Stop> {
    let answer = library::step(case.table, record, next, wish);
    let refused = step_refused(table, record, next);
    let expected = match refused {
        Some(refused) => Err(refused.refusal),
        None => Ok(recorder::step(table, record, next, wish)),
    };
    refused.into_iter().for_each(|refused| bench.tally.refused(refused));
    bench.agree(case, format_args!("step of {record:?} to {next}, wish {wish}"), &answer, &expected)
}

/// A record and a next state: mostly in range and along an edge.
fn draw(random: &mut Random, table: &Table) -> (Record, usize) {
    let n = table.states();
    let s = in_or_out(random, n);
    let record = Record {
        s,
        t: in_or_out(random, n + 1),
        live: random.chance(50),
        v: in_or_out(random, table.bit_patterns()),
    };
    let next = if s < n && random.chance(60) {
        random.pick(&table.successors[s])
    } else {
        in_or_out(random, n)
    };
    (record, next)
}

/// Mostly below the bound; else at it, close above it, or far above, also where the low 32 bits alone are in range.
fn in_or_out(random: &mut Random, bound: usize) -> usize {
    if random.chance(88) {
        return random.below(bound);
    }
    match random.below(5) {
        0 => bound,
        1 => bound + random.between(1, 64),
        2 => (1 << 32) + random.below(bound),
        3 => (random.word() | 1 << 40) as usize,
        _ => usize::MAX - random.below(2),
    }
}

/// On a table that is refused, the record does not matter.
pub fn compare_refused(bench: &mut Bench, case: &Case, random: &mut Random, refusal: Refusal) -> Result<(), Stop> {
    let record = Record {
        s: in_or_out(random, 4),
        t: in_or_out(random, 5),
        live: random.chance(50),
        v: in_or_out(random, 4),
    };
    let next = in_or_out(random, 4);
    let answer = library::step(case.table, record, next, random.chance(50));
    bench.agree(case, format_args!("step of {record:?} to {next}"), &answer, &Err(refusal))
}

//! All comparisons on one table.

use super::bench::{Bench, Stop};
use super::case::{Case, Name};
use super::{library, search, step, translate, walk};
use crate::draw::random::Random;
use crate::independent::file::open;
use crate::independent::least::least_lasso;
use crate::independent::quote::quote;
use crate::independent::refusal::Refused;
use crate::independent::table::Table;

/// How many buffer lengths and records to try.
#[derive(Clone, Copy, PartialEq)]
pub enum Depth {
    /// Every length.
    Sweep,
    /// Every length where S is tiny; else the lengths about what is needed, and some others.
    Sample,
    /// The least that tells each refusal.
    Few,
}

const TINY_SLOTS: usize = 24;

/// Compares on a table that begins at any address. The library may not change its bytes, nor those beside it.
pub fn compare(bench: &mut Bench, name: Name, random: &mut Random, table: &[u8], depth: Depth) -> Result<(), Stop> {
    let skip = random.below(8);
    let held = [&vec![0xa5; skip], table, &[0x5a; 8]].concat();
    let case = Case {
        name,
        table: &held[skip..skip + table.len()],
    };
    match open(table) {
        Ok(plain) => compare_accepted(bench, &case, random, &plain, depth)?,
        Err(refused) => compare_refused(bench, &case, random, refused)?,
    }
    let kept = held[skip..skip + table.len()] == *table && held[..skip].iter().all(|&byte| byte == 0xa5) && held[skip + table.len()..] == [0x5a; 8];
    bench.agree(&Case { name, table }, format_args!("table left as it was"), &kept, &true)
}

fn compare_accepted(bench: &mut Bench, case: &Case, random: &mut Random, table: &Table, depth: Depth) -> Result<(), Stop> {
    let quote = quote(table);
    let least = least_lasso(table);
    bench.tally.accepted(table, &quote, least.as_ref());
    let lasso = least.as_ref().map(|least| &least.lasso);
    let depth = if depth == Depth::Sample && quote.slots <= TINY_SLOTS {
        Depth::Sweep
    } else {
        depth
    };
    bench.agree(
        case,
        format_args!("open"),
        &library::open(case.table),
        &Ok((table.states(), table.edges(), table.sets.len())),
    )?;
    bench.agree(case, format_args!("quote"), &library::quote(case.table), &Ok(quote))?;
    search::compare(bench, case, random, &quote, lasso, depth)?;
    translate::compare(bench, case, random, table, &quote, depth)?;
    step::compare(bench, case, random, table, quote.slots, depth)?;
    walk::compare(bench, case, random, table, lasso)
}

fn compare_refused(bench: &mut Bench, case: &Case, random: &mut Random, refused: Refused) -> Result<(), Stop> {
    let refusal = refused.refusal;
    bench.tally.refused(refused);
    if let Some(last) = last_place(case.table, refusal.number) {
        bench.tally.place(refused, last);
    }
    if [3, 14, 15].contains(&refusal.number) {
        bench.tally.counts(outside(case.table));
    }
    bench.agree(case, format_args!("open"), &library::open(case.table), &Err(refusal))?;
    bench.agree(case, format_args!("quote"), &library::quote(case.table), &Err(refusal))?;
    search::compare_refused(bench, case, random, refusal)?;
    translate::compare_refused(bench, case, random, refusal)?;
    step::compare_refused(bench, case, random, refusal)
}

fn word(table: &[u8], at: usize) -> usize {
    u32::from_le_bytes([table[at], table[at + 1], table[at + 2], table[at + 3]]) as usize
}

/// The last place that a refusal can name in a table with these n and e.
fn last_place(table: &[u8], number: u32) -> Option<usize> {
    match number {
        5 => Some(word(table, 4)),
        6 => Some(word(table, 8) - 1),
        7 | 8 => Some(word(table, 4) - 1),
        _ => None,
    }
}

/// Which of n, e and m are outside their ranges.
fn outside(table: &[u8]) -> [bool; 3] {
    let ranges = [(4, 1..=64), (8, 1..=1_024), (12, 0..=4)];
    ranges.map(|(at, range)| !range.contains(&word(table, at)))
}

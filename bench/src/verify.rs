//! Before anything is measured, the jobs of the other sides are compared with the library's on the measured tables, on drawn ones and on the batch:
//! answers, refusals and all buffers afterwards.

use crate::batch::TABLES;
use crate::random::Random;
use crate::rows::{OPEN, QUOTE, SEARCH, STEP, TRANSLATE};
use crate::sides::{Side, SIDES};
use crate::tables::{cases, damaged, drawn};
use lasso::Record;

/// How many tables were compared, or the first difference.
pub fn all_the_same(drawn_tables: usize) -> Result<usize, String> {
    let random = &mut Random::seeded(600);
    let cases = [cases::opened(), cases::searched(), cases::translated()].into_iter().flatten();
    let measured: Vec<_> = cases.map(|case| case.table).collect();
    let drawn: Vec<_> = (0..drawn_tables).map(|_| draw(random)).collect();
    let night = cases::night(TABLES);
    compare_all(random, "measured", &measured, 1)?;
    compare_all(random, "drawn", &drawn, 4)?;
    compare_all(random, "batch", &night, 100)?;
    Ok(measured.len() + drawn.len() + night.len())
}

/// One table in so many is translated too, since that takes long.
fn compare_all(random: &mut Random, kind: &str, tables: &[Vec<u8>], translated: usize) -> Result<(), String> {
    let mut tables = tables.iter().enumerate();
    tables.try_for_each(|(i, table)| compare(random, table, i % translated == 0).map_err(|job| format!("{job} differs on {kind} table {i}")))
}

/// Mostly small, one in four damaged.
fn draw(random: &mut Random) -> Vec<u8> {
    let most = if random.percent(5) { 32 } else { 8 };
    let bytes = drawn::any(random, most).bytes();
    match random.below(8) {
        0 => damaged::anyhow(random, bytes),
        1 => damaged::by_one(random, bytes),
        _ => bytes,
    }
}

/// Compares all jobs on one table, or names the one that differs.
fn compare(random: &mut Random, table: &[u8], translated_too: bool) -> Result<(), String> {
    same(OPEN, |side| (side.open)(table))?;
    same(QUOTE, |side| (side.quote)(table))?;
    let (slots, bytes) = lasso::quote(table).map_or((20, 100), |sheet| (sheet.slots, sheet.bytes));
    compare_searches(random, table, slots)?;
    if translated_too {
        compare_translations(random, table, bytes)?;
    }
    (0..10).try_for_each(|_| compare_steps(random, table))
}

/// Names the first side that does not do what the library does.
fn same<T: PartialEq>(job: &str, run: impl Fn(&Side) -> T) -> Result<(), String> {
    let [library, others @ ..] = &SIDES;
    let expected = run(library);
    match others.iter().find(|side| run(side) != expected) {
        Some(side) => Err(format!("{} {job}", side.name)),
        None => Ok(()),
    }
}

fn compare_searches(random: &mut Random, table: &[u8], slots: usize) -> Result<(), String> {
    let workspace = words(random, 2 * slots);
    let report = words(random, slots);
    same(SEARCH, |side| {
        let (mut workspace, mut report) = (workspace.clone(), report.clone());
        ((side.search)(table, &mut workspace, &mut report), workspace, report)
    })
}

fn compare_translations(random: &mut Random, table: &[u8], bytes: usize) -> Result<(), String> {
    let output: Vec<u8> = words(random, bytes).into_iter().map(|word| word as u8).collect();
    same(TRANSLATE, |side| {
        let mut output = output.clone();
        ((side.translate)(table, &mut output), output)
    })
}

fn compare_steps(random: &mut Random, table: &[u8]) -> Result<(), String> {
    let n = lasso::open(table).map_or(5, |table| table.states);
    let record = Record {
        s: random.below(n + 1),
        t: random.below(n + 2),
        live: random.percent(50),
        v: random.below(17),
    };
    let (next, wish) = (random.below(n + 1), random.percent(50));
    same(STEP, |side| (side.step)(table, record, next, wish))
}

/// A buffer with something in it: of the wanted length, a little longer, or now and then one word short.
fn words(random: &mut Random, wanted: usize) -> Vec<u32> {
    let length = if random.percent(10) { wanted - 1 } else { wanted + random.below(3) };
    (0..length).map(|_| random.next() as u32).collect()
}

#[cfg(test)]
mod tests {
    use super::*;

    #[test]
    fn all_sides_do_the_same() {
        assert_eq!(all_the_same(500).map(|count| count > 500), Ok(true));
    }

    #[test]
    fn a_difference_is_named() {
        assert_eq!(same("open", |side| side.name), Err("plain open".to_string()));
        assert_eq!(same("open", |side| side.name == "tuned"), Err("tuned open".to_string()));
    }
}

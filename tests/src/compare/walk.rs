//! Compares runs of several steps from a start, each with save wishes ("The recorder"). After each step the record must be the independent one. It
//! must be bad exactly when a state was recorded, the last state is that state again, and the states before it, looped at the place of recording,
//! are a lasso.

use super::bench::{Bench, Stop};
use super::case::Case;
use super::library;
use crate::draw::random::Random;
use crate::independent::definition::{is_lasso, Lasso};
use crate::independent::recorder::{is_bad, starting, step};
use crate::independent::table::Table;

const LONGEST_RANDOM: usize = 14;

/// Some walks at random and, where there is a lasso, one along it that records at its place l.
pub fn compare(bench: &mut Bench, case: &Case, random: &mut Random, table: &Table, lasso: Option<&Lasso>) -> Result<(), Stop> {
    let starts: Vec<usize> = (0..table.states()).filter(|&s| table.start[s]).collect();
    if starts.is_empty() {
        return Ok(());
    }
    for _ in 0..2 {
        let start = random.pick(&starts);
        let run = random_run(random, table, start);
        let wish_chance = random.pick(&[5, 20, 60]);
        let wishes: Vec<bool> = run[1..].iter().map(|_| random.chance(wish_chance)).collect();
        walk(bench, case, table, &run, &wishes)?;
    }
    let Some(Lasso { states, l }) = lasso else { return Ok(()) };
    let closed: Vec<usize> = states.iter().chain([&states[*l]]).copied().collect();
    let wishes: Vec<bool> = (0..states.len()).map(|i| i == *l || (i > *l && random.chance(30))).collect();
    let bad = walk(bench, case, table, &closed, &wishes)?;
    bench.agree(case, format_args!("bad at the end of {closed:?}, recorded at {l}"), &bad, &true)
}

fn random_run(random: &mut Random, table: &Table, start: usize) -> Vec<usize> {
    let mut run = vec![start];
    for i in 0..random.between(1, LONGEST_RANDOM) {
        run.push(random.pick(&table.successors[run[i]]));
    }
    run
}

/// Steps along the run with the library, and says whether the last record is bad.
fn walk(bench: &mut Bench, case: &Case, table: &Table, run: &[usize], wishes: &[bool]) -> Result<bool, Stop> {
    let mut record = starting(table, run[0]);
    let mut recorded = None;
    let mut bad = false;
    for (i, &wish) in wishes.iter().enumerate() {
        let next = run[i + 1];
        let expected = step(table, record, next, wish);
        let moved = library::step(case.table, record, next, wish);
        bench.agree(
            case,
            format_args!("step {i} of the walk {run:?} with wishes {wishes:?}"),
            &moved,
            &Ok(expected),
        )?;
        record = moved.unwrap_or(expected);
        recorded = recorded.or(wish.then_some(i));
        bad = is_bad(table, record);
        let lasso = recorded.is_some_and(|l| run[l] == next && is_lasso(table, &run[..=i], l));
        bench.agree(
            case,
            format_args!("bad after step {i} of the walk {run:?} with wishes {wishes:?}"),
            &bad,
            &lasso,
        )?;
    }
    bench.tally.walk(bad, wishes.iter().filter(|&&wish| wish).count() > 1);
    Ok(bad)
}

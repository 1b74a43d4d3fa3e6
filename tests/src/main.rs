//! `compare`: the library, and the programs if given, against an independent program that is written from the rules alone
//! (docs/RULES.md, "What it answers"). A run with a fixed seed and one with a fresh seed draw small, larger and damaged tables. Exit status: 0 where
//! all agree and all that is required came up, 1 where not, 2 where the comparison could not be made.

mod arguments;
mod compare;
mod draw;
mod independent;
mod programs;

use arguments::{Arguments, Counts};
use compare::bench::{Bench, Stop};
use compare::case::Name;
use compare::table::Depth;
use draw::damage::damaged;
use draw::large::large;
use draw::random::Random;
use draw::small::small;
use std::path::Path;
use std::process::ExitCode;
use std::time::{Instant, SystemTime, UNIX_EPOCH};

const FIXED_SEED: u64 = 20_040_101;
/// One small table in so many is tried with every buffer length.
const ONE_SWEEP_IN: u64 = 4;

fn main() -> ExitCode {
    let arguments = match arguments::read(std::env::args().skip(1)) {
        Ok(arguments) => arguments,
        Err(message) => return cannot(&message),
    };
    let mut bench = Bench::default();
    match compare_all(&mut bench, &arguments) {
        Ok(()) => report(&bench, true),
        Err(Stop::EnoughDisagreements) => report(&bench, false),
        Err(Stop::Cannot(message)) => cannot(&message),
    }
}

fn cannot(message: &str) -> ExitCode {
    eprintln!("compare: {message}");
    ExitCode::from(2)
}

/// Prints the counts and the last line. Where the comparison ended early, what did not come up says nothing.
fn report(bench: &Bench, to_the_end: bool) -> ExitCode {
    bench.tally.lines().iter().for_each(|line| println!("{line}"));
    let missing = if to_the_end { bench.tally.missing() } else { Vec::new() };
    missing.iter().for_each(|line| println!("missing: {line}"));
    println!("compare: {} comparisons, {} disagreements", bench.comparisons, bench.disagreements);
    ExitCode::from(u8::from(bench.disagreements > 0 || !missing.is_empty()))
}

fn compare_all(bench: &mut Bench, arguments: &Arguments) -> Result<(), Stop> {
    let seed = arguments.seed.unwrap_or_else(fresh_seed);
    println!(
        "fixed seed {FIXED_SEED}, {} seed {seed}",
        if arguments.seed.is_some() { "given" } else { "fresh" }
    );
    compare::by_hand::compare(bench)?;
    compare_drawn(bench, FIXED_SEED, arguments.counts)?;
    compare_drawn(bench, seed, arguments.counts)?;
    for seed in [FIXED_SEED, seed] {
        compare_programs(bench, seed, arguments.programs.as_deref())?;
    }
    Ok(())
}

fn compare_programs(bench: &mut Bench, seed: u64, folder: Option<&Path>) -> Result<(), Stop> {
    let Some(folder) = folder else { return Ok(()) };
    let begun = Instant::now();
    let inputs = programs::compare(bench, folder, seed)?;
    println!(
        "seed {seed}: {inputs} inputs for the two programs in {:.1} s",
        begun.elapsed().as_secs_f64()
    );
    Ok(())
}

fn compare_drawn(bench: &mut Bench, seed: u64, counts: Counts) -> Result<(), Stop> {
    compare_kind(bench, seed, "small", counts.small, |random| small(random).file(), sweep_now_and_then)?;
    compare_kind(bench, seed, "large", counts.large, |random| large(random).file(), |_| Depth::Few)?;
    compare_kind(bench, seed, "damaged", counts.damaged, damaged, |_| Depth::Few)
}

fn sweep_now_and_then(number: u64) -> Depth {
    if number.is_multiple_of(ONE_SWEEP_IN) {
        Depth::Sweep
    } else {
        Depth::Sample
    }
}

fn compare_kind(
    bench: &mut Bench,
    seed: u64,
    kind: &'static str,
    count: u64,
    draw: impl Fn(&mut Random) -> Vec<u8>,
    depth: impl Fn(u64) -> Depth,
) -> Result<(), Stop> {
    let begun = Instant::now();
    for number in 0..count {
        let random = &mut Random::for_table(seed, kind, number);
        let table = draw(random);
        compare::table::compare(bench, Name::Drawn { seed, kind, number }, random, &table, depth(number))?;
    }
    println!("seed {seed}: {count} {kind} tables in {:.1} s", begun.elapsed().as_secs_f64());
    Ok(())
}

/// A seed from the clock and the process id.
fn fresh_seed() -> u64 {
    let clock = SystemTime::now().duration_since(UNIX_EPOCH).map_or(0, |time| time.as_nanos() as u64);
    Random::for_table(clock, "fresh", u64::from(std::process::id())).word()
}

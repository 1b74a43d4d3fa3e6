//! The five jobs of docs/RULES.md, "What it answers": the library and two versions in safe Rust, side by side in one run.

#![forbid(unsafe_code)]

mod batch;
#[cfg(test)]
mod hand_tables;
mod measure;
mod options;
mod plain;
mod print;
mod random;
mod rows;
mod shared;
mod sides;
mod tables;
mod tuned;
mod verify;

use measure::{Buffers, Method};
use print::Printer;
use std::process::ExitCode;
use std::time::Duration;

const TABLES_COMPARED: usize = 4_000;

fn main() -> ExitCode {
    let options = match options::read(std::env::args().skip(1)) {
        Ok(options) => options,
        Err(problem) => return fail(2, &problem),
    };
    let verified = match verify::all_the_same(TABLES_COMPARED) {
        Ok(count) => count,
        Err(difference) => return fail(1, &difference),
    };
    let (rounds, round, batch_rounds) = if options.quick { (31, 1_000, 3) } else { (251, 1_000, 11) };
    let method = Method {
        rounds,
        round: Duration::from_micros(round),
    };
    let mut buffers = Buffers::for_largest();
    let rows = rows::measured(method, &mut buffers);
    let batch = batch::measured(batch_rounds, &mut buffers);
    Printer {
        markdown: options.markdown,
        rounds,
        verified,
    }
    .print(&rows, &batch);
    ExitCode::SUCCESS
}

fn fail(status: u8, problem: &str) -> ExitCode {
    eprintln!("bench: {problem}");
    ExitCode::from(status)
}

//! The programs `verdict` and `translate` themselves, run on table after table and compared byte for byte with what the independent program says that
//! they write ("Tables by hand", from "Program *translate*" on).

mod inputs;
mod run;

use crate::compare::bench::{hex, Bench, Stop};
use crate::compare::case::{Case, Name};
use crate::independent::printed;
use inputs::{inputs, Input};
use run::run;
use std::fmt::{Debug, Formatter};
use std::path::Path;

/// What a program wrote.
#[derive(PartialEq)]
struct Written(Vec<u8>);

/// The text, or the first bytes where it is none.
impl Debug for Written {
    fn fmt(&self, f: &mut Formatter) -> std::fmt::Result {
        match std::str::from_utf8(&self.0) {
            Ok(text) if text.starts_with(|c: char| c.is_ascii_lowercase()) => write!(f, "{text:?}"),
            _ => write!(f, "{} bytes {}..", self.0.len(), hex(&self.0[..self.0.len().min(400)])),
        }
    }
}

pub fn compare(bench: &mut Bench, folder: &Path, seed: u64) -> Result<usize, Stop> {
    let inputs = inputs(seed);
    for (number, input) in inputs.iter().enumerate() {
        let name = Name::Input {
            seed,
            kind: input.kind,
            number,
        };
        compare_both(bench, folder, name, input)?;
    }
    Ok(inputs.len())
}

fn compare_both(bench: &mut Bench, folder: &Path, name: Name, input: &Input) -> Result<(), Stop> {
    let case = Case { name, table: &input.bytes };
    let expected = printed::verdict(&input.bytes);
    bench.tally.verdict(&expected);
    compare_one(bench, &case, &folder.join("verdict"), input, expected.into_bytes())?;
    let expected = printed::translate(&input.bytes);
    bench.tally.translate(&expected);
    compare_one(bench, &case, &folder.join("translate"), input, expected)
}

fn compare_one(bench: &mut Bench, case: &Case, program: &Path, input: &Input, expected: Vec<u8>) -> Result<(), Stop> {
    let written = run(program, input).map_err(|error| Stop::Cannot(format!("{} cannot be run: {error}", program.display())))?;
    let asked = format_args!("{} on {} bytes, {} at a time", program.display(), input.bytes.len(), input.at_a_time);
    let (written, expected) = (written.map(Written), Ok(Written(expected)));
    match first_difference(&written, &expected) {
        Some(at) => bench.agree(case, format_args!("{asked}; the first difference is at byte {at}"), &written, &expected),
        None => bench.agree(case, asked, &written, &expected),
    }
}

fn first_difference(written: &Result<Written, String>, expected: &Result<Written, String>) -> Option<usize> {
    let (Ok(Written(written)), Ok(Written(expected))) = (written, expected) else {
        return None;
    };
    let shorter = written.len().min(expected.len());
    let at = (0..shorter).find(|&i| written[i] != expected[i]).unwrap_or(shorter);
    (written != expected).then_some(at)
}

//! Counts comparisons and disagreements, and prints each disagreement: what was asked, what each side said, the seed, the table's number and bytes.

use super::case::Case;
use super::tally::Tally;
use std::fmt::{Arguments, Debug};

/// After so many disagreements the comparison ends.
const MOST_DISAGREEMENTS: u64 = 5;
const MOST_BYTES_PRINTED: usize = 5_000;

/// Why the comparison ends before all tables are compared.
#[derive(Debug)]
pub enum Stop {
    EnoughDisagreements,
    /// A program could not be run at all.
    Cannot(String),
}

#[derive(Default)]
pub struct Bench {
    pub tally: Tally,
    pub comparisons: u64,
    pub disagreements: u64,
}

impl Bench {
    /// One comparison of what the library, or a program built on it, says with what the independent program says.
    pub fn agree<T: PartialEq + Debug>(&mut self, case: &Case, asked: Arguments, library: &T, independent: &T) -> Result<(), Stop> {
        self.comparisons += 1;
        if library == independent {
            return Ok(());
        }
        self.disagreements += 1;
        println!("disagreement {}: {asked}", self.disagreements);
        println!("  library:     {library:?}");
        println!("  independent: {independent:?}");
        println!("  table:       {}", case.name);
        println!("  bytes:       {}", first_bytes(case.table));
        if self.disagreements < MOST_DISAGREEMENTS {
            Ok(())
        } else {
            Err(Stop::EnoughDisagreements)
        }
    }
}

/// All bytes of a table, or the first of an input that is longer than any table.
fn first_bytes(table: &[u8]) -> String {
    match table.get(..MOST_BYTES_PRINTED) {
        Some(first) => format!("{}.. {} bytes in all", hex(first), table.len()),
        None => hex(table),
    }
}

pub fn hex(bytes: &[u8]) -> String {
    bytes.iter().map(|byte| format!("{byte:02x}")).collect()
}

//! One table to compare on: its bytes, and the seed and number from which it can be drawn again.

use std::fmt::{Display, Formatter, Result};

#[derive(Clone, Copy)]
pub struct Case<'a> {
    pub name: Name,
    pub table: &'a [u8],
}

#[derive(Clone, Copy)]
pub enum Name {
    /// "Tables by hand".
    Hand(&'static str),
    Drawn {
        seed: u64,
        kind: &'static str,
        number: u64,
    },
    /// An input for the programs.
    Input {
        seed: u64,
        kind: &'static str,
        number: usize,
    },
}

impl Display for Name {
    fn fmt(&self, f: &mut Formatter) -> Result {
        match self {
            Name::Hand(name) => write!(f, "{name} by hand"),
            Name::Drawn { seed, kind, number } => write!(f, "seed {seed}, {kind} table {number}"),
            Name::Input { seed, kind, number } => write!(f, "seed {seed}, program input {number}, {kind}"),
        }
    }
}

//! Open: docs/RULES.md, "The table file" and the table's own lines of "Refusal list".
//!
//! A good table is told by loops without early exits, which the compiler can turn into vector code. Only a table that fails there is read a second
//! time, line by line of the refusal list, to find the number and the place.

use crate::plain;
use crate::shared::parts::{number, Parts};
use lasso::{Refusal, Table};

#[inline(never)]
pub fn open(table: &[u8]) -> Result<Table, Refusal> {
    take_apart(table).map(|parts| parts.table())
}

/// The sections of the table, or its refusal.
pub fn take_apart(table: &[u8]) -> Result<Parts<'_>, Refusal> {
    let parts = Parts::by_header(table)?;
    if !is_good(&parts) {
        check(&parts)?;
    }
    Ok(parts)
}

#[cold]
fn check(parts: &Parts) -> Result<(), Refusal> {
    plain::check(parts)
}

fn is_good(parts: &Parts) -> bool {
    starts_are_good(parts) && targets_are_good(parts) && parts.marks.iter().fold(0, |all, mark| all | mark) & parts.clear_bits() == 0
}

/// From 0 to e, and rising strictly: no row is empty.
fn starts_are_good(parts: &Parts) -> bool {
    let starts = parts.starts;
    number(starts[0]) == 0 && number(starts[parts.n]) == parts.e && stops_rising(starts) == 0
}

/// No target fails to rise except at the first place of a row, and the last target of each row is below n. The count over all places need not know
/// where rows begin, so the long loop is a simple one; the other count is over first places only.
fn targets_are_good(parts: &Parts) -> bool {
    let targets = parts.targets;
    let (mut at_first_places, mut too_large) = (0, false);
    let mut last = number(targets[number(parts.starts[1]) - 1]);
    for starts in parts.starts[1..].windows(2) {
        too_large |= last >= parts.n;
        at_first_places += u32::from(number(targets[number(starts[0])]) <= last);
        last = number(targets[number(starts[1]) - 1]);
    }
    !too_large && last < parts.n && stops_rising(targets) == at_first_places
}

/// At how many places a word is not above the one before it.
fn stops_rising(words: &[[u8; 4]]) -> u32 {
    words
        .iter()
        .zip(&words[1..])
        .map(|(&before, &word)| u32::from(u32::from_le_bytes(word) <= u32::from_le_bytes(before)))
        .sum()
}

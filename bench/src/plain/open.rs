//! Open: docs/RULES.md, the table's own lines of "Refusal list", a loop for each of 5 to 8.

use crate::shared::parts::{number, refused, Parts};
use lasso::{Refusal, Table};

#[inline(never)]
pub fn open(table: &[u8]) -> Result<Table, Refusal> {
    take_apart(table).map(|parts| parts.table())
}

/// The sections of the table, or its refusal.
#[inline]
pub fn take_apart(table: &[u8]) -> Result<Parts<'_>, Refusal> {
    let parts = Parts::by_header(table)?;
    check(&parts)?;
    Ok(parts)
}

/// Refusals 5 to 8.
pub fn check(parts: &Parts) -> Result<(), Refusal> {
    if let Some(place) = first_wrong_start(parts) {
        return refused(5, place);
    }
    if let Some(place) = first_wrong_target(parts) {
        return refused(6, place);
    }
    if let Some(place) = parts.starts.windows(2).position(|starts| starts[0] == starts[1]) {
        return refused(7, place);
    }
    if let Some(place) = parts.marks.iter().position(|mark| mark & parts.clear_bits() != 0) {
        return refused(8, place);
    }
    Ok(())
}

fn first_wrong_start(parts: &Parts) -> Option<usize> {
    let mut before = 0;
    for (i, &word) in parts.starts.iter().enumerate() {
        let start = number(word);
        if (i == 0 && start != 0) || start < before || start > parts.e || (i == parts.n && start != parts.e) {
            return Some(i);
        }
        before = start;
    }
    None
}

fn first_wrong_target(parts: &Parts) -> Option<usize> {
    for s in 0..parts.n {
        let mut least = 0;
        for (i, &word) in parts.row(s).iter().enumerate() {
            let target = number(word);
            if target >= parts.n || target < least {
                return Some(number(parts.starts[s]) + i);
            }
            least = target + 1;
        }
    }
    None
}

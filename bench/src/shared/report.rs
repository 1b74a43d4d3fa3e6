//! The report of a lasso: docs/RULES.md, "Lasso and choice" and "Buffers".

use lasso::Found;

/// A search keeps, for each slot met, its predecessor plus 1. This stands for a start's. Slot numbers are far below it.
pub const NO_PREDECESSOR: u32 = u32::MAX;

/// Writes the states of the lasso whose last record has the slot `last`, from the last back to the first. `states` gives a slot's s and t.
pub fn write(n: usize, before: &[u32], last: usize, states: impl Fn(usize) -> (usize, usize), report: &mut [u32]) -> Found {
    let run = || std::iter::successors(Some(last), |&slot| (before[slot] != NO_PREDECESSOR).then(|| before[slot] as usize - 1));
    let length = run().count();
    let mut unsaved = 0;
    for (word, slot) in report[..length].iter_mut().rev().zip(run()) {
        let (s, t) = states(slot);
        *word = s as u32;
        unsaved += usize::from(t == n);
    }
    Found::Lasso {
        k: length - 1,
        l: unsaved - 1,
    }
}

//! Search: docs/RULES.md, "Lasso and choice", "The recorder".
//!
//! The walk of the plain search, without live records: none becomes bad, so the walk stops at goal states. A slot is taken apart without a division,
//! the inner loop has no branch that is hard to foresee, and only what was written is cleared.

use super::open::take_apart;
use crate::shared::lent;
use crate::shared::parts::{number, Parts};
use crate::shared::report::{self, NO_PREDECESSOR};
use lasso::{Found, Refusal};

#[inline(never)]
pub fn search(table: &[u8], workspace: &mut [u32], report: &mut [u32]) -> Result<Found, Refusal> {
    let parts = take_apart(table)?;
    let (workspace, report) = lent::for_search(&parts, workspace, report)?;
    workspace.fill(0);
    let (before, queue) = workspace.split_at_mut(parts.slots());
    let numbers = Numbers::of(&parts);
    let (last, met) = walk(&parts, &numbers, before, queue);
    let found = last.map_or(Found::Holds, |last| {
        report::write(parts.n, before, last, |slot| numbers.states(slot), report)
    });
    // The word after the queue may have been written too.
    let written = queue.len().min(met + 1);
    clear(before, &mut queue[..written]);
    Ok(found)
}

/// How slot numbers are taken apart.
struct Numbers {
    n: usize,
    m: usize,
    of_state: usize,
    inverse: usize,
}

/// For the division by n+1 as a multiplication: s(n+1) + t is below 2^13 and n+1 below 2^7, so that this is close enough.
fn inverse(n: usize) -> usize {
    (1 << 20) / (n + 1) + 1
}

impl Numbers {
    fn of(parts: &Parts) -> Self {
        Numbers {
            n: parts.n,
            m: parts.m,
            of_state: parts.slots_of_state(),
            inverse: inverse(parts.n),
        }
    }

    /// State and saved state.
    #[inline]
    fn states(&self, slot: usize) -> (usize, usize) {
        let pair = slot >> (self.m + 1);
        let s = (pair * self.inverse) >> 20;
        (s, pair - s * (self.n + 1))
    }
}

/// Walks until a bad slot is met. Gives the slot from which it was met, and how many slots stand in the queue.
fn walk(parts: &Parts, numbers: &Numbers, before: &mut [u32], queue: &mut [u32]) -> (Option<usize>, usize) {
    let values = parts.fairness_values();
    let mut met = 0;
    // Whether a slot is new is hard to foresee, so nothing here hangs on it but values: the word after the queue is written in any case, and counted
    // or not.
    let mut meet = |slot: usize, predecessor: u32, met: &mut usize, queue: &mut [u32]| {
        let word = &mut before[slot];
        let is_new = *word == 0;
        *word = if is_new { predecessor } else { *word };
        if let Some(last) = queue.get_mut(*met) {
            *last = slot as u32;
        }
        *met += usize::from(is_new);
    };
    for s in (0..parts.n).filter(|&s| parts.is_start(s)) {
        meet(s * numbers.of_state + parts.n * 2 * values, NO_PREDECESSOR, &mut met, queue);
    }
    let mut head = 0;
    while head < met {
        let slot = queue[head] as usize;
        head += 1;
        let (s, t) = numbers.states(slot);
        if parts.has_goal(s) {
            continue;
        }
        let saved = if t == parts.n { s } else { t };
        let v = (slot & (values - 1)) | parts.sets_of(s);
        let with_saved = saved * 2 * values + v;
        // The target whose record is bad, or n for none.
        let closing = if v == values - 1 { saved } else { parts.n };
        let predecessor = slot as u32 + 1;
        let row = parts.row(s).iter().map(|&target| number(target));
        if t == parts.n {
            let nothing_saved = parts.n * 2 * values;
            for target in row {
                if target == closing {
                    return (Some(slot), met);
                }
                meet(target * numbers.of_state + with_saved, predecessor, &mut met, queue);
                meet(target * numbers.of_state + nothing_saved, predecessor, &mut met, queue);
            }
        } else {
            for target in row {
                if target == closing {
                    return (Some(slot), met);
                }
                meet(target * numbers.of_state + with_saved, predecessor, &mut met, queue);
            }
        }
    }
    (None, met)
}

/// Leaves all words zero, given the written part of the queue. After a short walk only the predecessors of the slots in it are cleared.
fn clear(before: &mut [u32], queue: &mut [u32]) {
    if queue.len() < before.len() / 16 {
        for &slot in queue.iter() {
            before[slot as usize] = 0;
        }
    } else {
        before.fill(0);
    }
    queue.fill(0);
}

#[cfg(test)]
mod tests {
    use super::Numbers;

    #[test]
    fn slots_are_taken_apart_exactly() {
        for n in 1..=64 {
            let numbers = Numbers {
                n,
                m: 0,
                of_state: 2 * (n + 1),
                inverse: super::inverse(n),
            };
            for pair in 0..n * (n + 1) {
                assert_eq!(numbers.states(2 * pair), (pair / (n + 1), pair % (n + 1)), "n {n}");
            }
        }
    }
}

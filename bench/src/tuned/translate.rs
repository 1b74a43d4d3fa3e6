//! Translate: docs/RULES.md, "Translated table". The targets of the slots with t saved are made from those with t-1 saved, a block at a
//! time.

use super::open::take_apart;
use crate::shared::lent;
use crate::shared::parts::{number, Parts};
use lasso::Refusal;

#[inline(never)]
pub fn translate(table: &[u8], output: &mut [u8]) -> Result<usize, Refusal> {
    let parts = take_apart(table)?;
    let sections = lent::for_translation(&parts, output)?;
    write_starts(&parts, sections.starts);
    write_targets(&parts, sections.targets);
    write_marks(&parts, sections.marks);
    Ok(parts.translated_bytes())
}

/// A slot with a saved state has one edge for each target of its state, one with nothing saved has two.
fn write_starts(parts: &Parts, starts: &mut [[u8; 4]]) {
    let flags = 2 * parts.fairness_values();
    let (slots, last) = starts.split_at_mut(parts.slots());
    let mut start = 0u32;
    for (s, of_state) in slots.chunks_exact_mut(parts.slots_of_state()).enumerate() {
        let row = parts.row(s).len() as u32;
        let (saved, nothing_saved) = of_state.split_at_mut(parts.n * flags);
        for word in saved {
            *word = start.to_le_bytes();
            start += row;
        }
        for word in nothing_saved {
            *word = start.to_le_bytes();
            start += 2 * row;
        }
    }
    last[0] = start.to_le_bytes();
}

/// The successors of all slots of all states.
fn write_targets(parts: &Parts, targets: &mut [[u8; 4]]) {
    let flags = 2 * parts.fairness_values();
    let mut rest = targets;
    for s in 0..parts.n {
        let row = parts.row(s);
        let (of_state, later) = rest.split_at_mut(row.len() * (parts.n + 2) * flags);
        let (saved, nothing_saved) = of_state.split_at_mut(row.len() * parts.n * flags);
        write_targets_saved(parts, s, saved);
        write_targets_nothing_saved(parts, s, nothing_saved);
        rest = later;
    }
}

/// The successors of the slots of s with a saved state. Those with t saved are those with t-1 saved, plus the slots of one saved state.
fn write_targets_saved(parts: &Parts, s: usize, targets: &mut [[u8; 4]]) {
    let flags = 2 * parts.fairness_values();
    let row = parts.row(s);
    let (first, later) = targets.split_at_mut(row.len() * flags);
    for (flag, words) in first.chunks_exact_mut(row.len()).enumerate() {
        let next_flag = flag | flags_of(parts, s);
        for (word, &target) in words.iter_mut().zip(row) {
            *word = ((number(target) * parts.slots_of_state() + next_flag) as u32).to_le_bytes();
        }
    }
    let mut before: &[[u8; 4]] = first;
    for words in later.chunks_exact_mut(row.len() * flags) {
        for (word, &one_before) in words.iter_mut().zip(before) {
            *word = (u32::from_le_bytes(one_before) + flags as u32).to_le_bytes();
        }
        before = words;
    }
}

/// The successors of the slots of s with nothing saved: along each edge first the one with a wish, which saves s.
fn write_targets_nothing_saved(parts: &Parts, s: usize, targets: &mut [[u8; 4]]) {
    let values = parts.fairness_values();
    let row = parts.row(s);
    let goal = flags_of(parts, s) & values;
    for (flag, words) in targets.chunks_exact_mut(2 * row.len()).enumerate() {
        let with_wish = s * 2 * values + (flag | flags_of(parts, s));
        let without = parts.n * 2 * values + (flag | goal);
        for (pair, &target) in words.as_chunks_mut::<2>().0.iter_mut().zip(row) {
            let first = number(target) * parts.slots_of_state();
            *pair = [with_wish, without].map(|rest| ((first + rest) as u32).to_le_bytes());
        }
    }
}

/// What a step from s sets in live and the fairness bits, as they stand in a slot number.
fn flags_of(parts: &Parts, s: usize) -> usize {
    usize::from(parts.has_goal(s)) * parts.fairness_values() + parts.sets_of(s)
}

fn write_marks(parts: &Parts, marks: &mut [u8]) {
    let values = parts.fairness_values();
    for (s, of_state) in marks.chunks_exact_mut(parts.slots_of_state()).enumerate() {
        of_state.fill(parts.marks[s] & 2);
        of_state[s * 2 * values + values - 1] |= 64;
        of_state[parts.n * 2 * values] |= u8::from(parts.is_start(s));
    }
}

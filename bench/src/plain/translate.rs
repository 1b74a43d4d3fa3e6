//! Translate: docs/RULES.md, "Translated table". Slot after slot: its row start, its targets, its mark.

use super::open::take_apart;
use super::record;
use crate::shared::parts::{number, Parts};
use crate::shared::{lent, step};
use lasso::{Record, Refusal};

#[inline(never)]
pub fn translate(table: &[u8], output: &mut [u8]) -> Result<usize, Refusal> {
    let parts = take_apart(table)?;
    let sections = lent::for_translation(&parts, output)?;
    let mut edges = 0;
    let mut record = record::of_slot(&parts, 0);
    for slot in 0..parts.slots() {
        sections.starts[slot] = (edges as u32).to_le_bytes();
        edges += write_targets(&parts, record, &mut sections.targets[edges..]);
        sections.marks[slot] = mark(&parts, record);
        record = record::following(&parts, record);
    }
    sections.starts[parts.slots()] = (edges as u32).to_le_bytes();
    Ok(parts.translated_bytes())
}

/// Writes the slots to which the record steps, and tells how many. Where nothing is saved, each edge is taken with a wish and then without. Only the
/// state differs from edge to edge, so the record steps to state 0, and the target's share of the slot number is added.
fn write_targets(parts: &Parts, record: Record, targets: &mut [[u8; 4]]) -> usize {
    let to_zero = |wish| record::slot(parts, step::along(parts, record, 0, wish));
    let (saving, plain) = (to_zero(true), to_zero(false));
    let each = record::slots_of_a_state(parts);
    let word = |target, first| ((number(target) * each + first) as u32).to_le_bytes();
    let row = parts.row(record.s);
    if record.t == parts.n {
        for (pair, &target) in targets.as_chunks_mut().0.iter_mut().zip(row) {
            *pair = [word(target, saving), word(target, plain)];
        }
        2 * row.len()
    } else {
        for (place, &target) in targets.iter_mut().zip(row) {
            *place = word(target, plain);
        }
        row.len()
    }
}

fn mark(parts: &Parts, record: Record) -> u8 {
    let is_start = parts.is_start(record.s) && record == record::start(parts, record.s);
    u8::from(is_start) | parts.marks[record.s] & 2 | u8::from(record::is_bad(parts, record)) << 6
}

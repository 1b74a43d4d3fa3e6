//! Quote: docs/RULES.md, "Quote sheet". The members of all sets are counted in one word.

use super::open::take_apart;
use crate::shared::sheet::sheet;
use lasso::{Refusal, Sheet};

#[inline(never)]
pub fn quote(table: &[u8]) -> Result<Sheet, Refusal> {
    let parts = take_apart(table)?;
    Ok(sheet(&parts, members(parts.marks)))
}

/// The members of sets 0 to 3. The four counts are kept in the four bytes of one word: none is above 64.
fn members(marks: &[u8]) -> [usize; 4] {
    let counts = marks.iter().map(|&mark| spread(mark)).sum::<u32>();
    counts.to_le_bytes().map(usize::from)
}

/// Mark bits 2 to 5, each in bit 0 of its own byte.
fn spread(mark: u8) -> u32 {
    let sets = u32::from(mark >> 2);
    (sets & 1) | (sets & 2) << 7 | (sets & 4) << 14 | (sets & 8) << 21
}

//! Quote: docs/RULES.md, "Quote sheet". The members are counted mark by mark.

use super::open::take_apart;
use crate::shared::sheet::sheet;
use lasso::{Refusal, Sheet};

#[inline(never)]
pub fn quote(table: &[u8]) -> Result<Sheet, Refusal> {
    let parts = take_apart(table)?;
    let mut members = [0; 4];
    for mark in parts.marks {
        for (set, count) in members.iter_mut().enumerate() {
            *count += usize::from(mark >> (2 + set) & 1);
        }
    }
    Ok(sheet(&parts, members))
}

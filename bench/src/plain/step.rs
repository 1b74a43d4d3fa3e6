//! Step: docs/RULES.md, "The recorder".

use super::open::take_apart;
use crate::shared::step::checked;
use lasso::{Record, Refusal};

#[inline(never)]
pub fn step(table: &[u8], record: Record, next: usize, wish: bool) -> Result<Record, Refusal> {
    checked(&take_apart(table)?, record, next, wish)
}

//! A step of a record: docs/RULES.md, "The recorder", refusals 12 and 13.

use super::parts::{number, refused, Parts};
use lasso::{Record, Refusal};

/// The record after a step to `next`. Whether s to `next` is an edge is not looked at.
#[inline]
pub fn along(parts: &Parts, record: Record, next: usize, wish: bool) -> Record {
    let Record { s, t, live, v } = record;
    let saved = if t == parts.n && wish { s } else { t };
    let bits = if saved == parts.n { v } else { v | parts.sets_of(s) };
    Record {
        s: next,
        t: saved,
        live: live || parts.has_goal(s),
        v: bits,
    }
}

/// The record after the step, or the refusal of a record or an edge that the table does not have.
pub fn checked(parts: &Parts, record: Record, next: usize, wish: bool) -> Result<Record, Refusal> {
    let Record { s, t, v, .. } = record;
    if s >= parts.n || next >= parts.n || t > parts.n || v >= parts.fairness_values() {
        return refused(12, 0);
    }
    if !parts.row(s).iter().any(|&target| number(target) == next) {
        return refused(13, 0);
    }
    Ok(along(parts, record, next, wish))
}

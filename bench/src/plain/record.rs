//! Slot numbers of records, and bad records: docs/RULES.md, "The recorder".

use crate::shared::parts::Parts;
use lasso::Record;

#[inline]
pub fn slot(parts: &Parts, record: Record) -> usize {
    let Record { s, t, live, v } = record;
    (((s * (parts.n + 1) + t) * 2 + usize::from(live)) << parts.m) + v
}

/// The record of the slot.
#[inline]
pub fn of_slot(parts: &Parts, slot: usize) -> Record {
    let pair = slot >> (parts.m + 1);
    Record {
        s: pair / (parts.n + 1),
        t: pair % (parts.n + 1),
        live: slot & parts.fairness_values() != 0,
        v: slot & (parts.fairness_values() - 1),
    }
}

/// The record of the next slot: fairness bits, flag, saved state and state are counted on.
#[inline]
pub fn following(parts: &Parts, record: Record) -> Record {
    let Record { s, t, live, v } = record;
    if v + 1 < parts.fairness_values() {
        Record { v: v + 1, ..record }
    } else if !live {
        Record { live: true, v: 0, ..record }
    } else if t < parts.n {
        Record {
            s,
            t: t + 1,
            live: false,
            v: 0,
        }
    } else {
        Record {
            s: s + 1,
            t: 0,
            live: false,
            v: 0,
        }
    }
}

/// How many slots a state has.
pub fn slots_of_a_state(parts: &Parts) -> usize {
    (parts.n + 1) << (parts.m + 1)
}

/// The record of a start.
pub fn start(parts: &Parts, s: usize) -> Record {
    Record {
        s,
        t: parts.n,
        live: false,
        v: 0,
    }
}

#[inline]
pub fn is_bad(parts: &Parts, record: Record) -> bool {
    record.s == record.t && !record.live && record.v == parts.fairness_values() - 1
}

//! The three sides that are compared, each with the five jobs of docs/RULES.md, "What it answers": the table in lent bytes, the buffers lent by the
//! caller, the same answers, refusals and buffers afterwards.

use crate::{plain, tuned};
use lasso::{Found, Record, Refusal, Sheet, Table};

/// Table, workspace and report.
type Search = fn(&[u8], &mut [u32], &mut [u32]) -> Result<Found, Refusal>;

#[derive(Clone, Copy)]
pub struct Side {
    pub name: &'static str,
    pub open: fn(&[u8]) -> Result<Table, Refusal>,
    pub quote: fn(&[u8]) -> Result<Sheet, Refusal>,
    pub search: Search,
    pub translate: fn(&[u8], &mut [u8]) -> Result<usize, Refusal>,
    pub step: fn(&[u8], Record, usize, bool) -> Result<Record, Refusal>,
}

/// In the order of the printed columns.
pub const SIDES: [Side; 3] = [
    Side {
        name: "library",
        open: lasso::open,
        quote: lasso::quote,
        search: lasso::search,
        translate: lasso::translate,
        step: lasso::step,
    },
    Side {
        name: "plain",
        open: plain::open,
        quote: plain::quote,
        search: plain::search,
        translate: plain::translate,
        step: plain::step,
    },
    Side {
        name: "tuned",
        open: tuned::open,
        quote: tuned::quote,
        search: tuned::search,
        translate: tuned::translate,
        step: tuned::step,
    },
];

/// What each side took for the same work.
pub type Times = [f64; 3];

/// library/plain and library/tuned.
pub fn ratios([library, plain, tuned]: Times) -> [f64; 2] {
    [library / plain, library / tuned]
}

//! Search: docs/RULES.md, "Lasso and choice", "The recorder".
//!
//! A breadth-first walk over slot numbers. The first S words of the workspace hold, for each slot met, its predecessor plus 1; the next S words are
//! the queue. The tie rule orders records by 2s, plus 1 where nothing is saved. So along each edge the successor that saves comes before the one that
//! does not, and rows rise; then the first bad slot met ends the least list.

use super::open::take_apart;
use super::record;
use crate::shared::parts::{number, Parts};
use crate::shared::report::{self, NO_PREDECESSOR};
use crate::shared::{lent, step};
use lasso::{Found, Record, Refusal};

#[inline(never)]
pub fn search(table: &[u8], workspace: &mut [u32], report: &mut [u32]) -> Result<Found, Refusal> {
    let parts = take_apart(table)?;
    let (workspace, report) = lent::for_search(&parts, workspace, report)?;
    let (before, queue) = workspace.split_at_mut(parts.slots());
    before.fill(0);
    let last = Walk { before, queue, met: 0 }.before_first_bad(&parts);
    let states = |slot| {
        let Record { s, t, .. } = record::of_slot(&parts, slot);
        (s, t)
    };
    let found = last.map_or(Found::Holds, |last| report::write(parts.n, before, last, states, report));
    workspace.fill(0);
    Ok(found)
}

struct Walk<'a> {
    before: &'a mut [u32],
    queue: &'a mut [u32],
    met: usize,
}

impl Walk<'_> {
    /// Walks until a bad slot is met, and gives the slot from which it was met.
    fn before_first_bad(&mut self, parts: &Parts) -> Option<usize> {
        for s in (0..parts.n).filter(|&s| parts.is_start(s)) {
            self.meet(record::slot(parts, record::start(parts, s)), NO_PREDECESSOR);
        }
        let of_state = parts.slots_of_state();
        let mut head = 0;
        while head < self.met {
            let slot = self.queue[head] as usize;
            head += 1;
            let from = record::of_slot(parts, slot);
            // Along all edges of a row the step gives the same t, live and v. So it is taken once, to state 0, and the slots of the others follow.
            let with_wish = step::along(parts, from, 0, true);
            let without = step::along(parts, from, 0, false);
            let (slot_with_wish, slot_without) = (record::slot(parts, with_wish), record::slot(parts, without));
            for &target in parts.row(from.s) {
                let s = number(target);
                if record::is_bad(parts, Record { s, ..with_wish }) {
                    return Some(slot);
                }
                self.meet(s * of_state + slot_with_wish, slot as u32 + 1);
                if from.t == parts.n {
                    self.meet(s * of_state + slot_without, slot as u32 + 1);
                }
            }
        }
        None
    }

    #[inline]
    fn meet(&mut self, slot: usize, predecessor: u32) {
        if self.before[slot] == 0 {
            self.before[slot] = predecessor;
            self.queue[self.met] = slot as u32;
            self.met += 1;
        }
    }
}

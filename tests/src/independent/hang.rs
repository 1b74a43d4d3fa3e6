//! Whether there is any lasso at all ("Lasso and choice", without lengths and ties), by what leads to what among the goal-free states.

use super::masks::{members, Masks};

/// The states on which the loop of some lasso lies. There is a lasso exactly when there is such a state.
pub fn loop_states(masks: &Masks) -> u64 {
    let onward = closure(masks);
    let reached = members(masks.starts & masks.goal_free).fold(0, |all, s| all | 1 << s | onward[s]);
    members(reached).filter(|&q| can_loop(masks, &onward, q)).map(|q| 1 << q).sum()
}

/// For each goal-free state, what one or more edges between goal-free states lead to.
fn closure(masks: &Masks) -> Vec<u64> {
    let mut onward: Vec<u64> = masks.next.iter().map(|next| next & masks.goal_free).collect();
    for via in members(masks.goal_free) {
        let beyond = onward[via];
        for from in onward.iter_mut() {
            if *from & (1 << via) != 0 {
                *from |= beyond;
            }
        }
    }
    onward
}

/// Whether a loop through q can meet every set: the states that q leads to and that lead to q can all lie on one loop.
fn can_loop(masks: &Masks, onward: &[u64], q: usize) -> bool {
    let around: u64 = members(onward[q]).filter(|&s| onward[s] & (1 << q) != 0).map(|s| 1 << s).sum();
    around & (1 << q) != 0 && masks.sets.iter().all(|set| set & around != 0)
}

//! "Lasso and choice": what a lasso is, and the list of numbers that decides between two of the same length.

use super::table::Table;

#[derive(Clone, Debug, PartialEq, Eq)]
pub struct Lasso {
    /// s0 to sk.
    pub states: Vec<usize>,
    pub l: usize,
}

pub fn is_lasso(table: &Table, states: &[usize], l: usize) -> bool {
    l < states.len()
        && table.start[states[0]]
        && states.windows(2).all(|pair| table.has_edge(pair[0], pair[1]))
        && table.has_edge(states[states.len() - 1], states[l])
        && states.iter().all(|&s| !table.goal[s])
        && table.sets.iter().all(|set| states[l..].iter().any(|&s| set[s]))
}

/// The number of one place: twice its state, plus 1 where the place is not after l.
pub fn place_number(state: usize, not_after_l: bool) -> usize {
    2 * state + usize::from(not_after_l)
}

//! The same table as sets of states, one bit a state. There are at most 64.

use super::table::Table;

pub struct Masks {
    pub next: Vec<u64>,
    pub starts: u64,
    pub goal_free: u64,
    pub sets: Vec<u64>,
    /// For each pattern of set bits, the states that have exactly these.
    pub with_bits: Vec<u64>,
    /// For each state, the bits of the sets holding it.
    pub bits: Vec<usize>,
}

impl Masks {
    pub fn of(table: &Table) -> Masks {
        let states = 0..table.states();
        let where_true = |marks: &[bool]| states.clone().filter(|&s| marks[s]).map(|s| 1 << s).sum::<u64>();
        let bits: Vec<usize> = states.clone().map(|s| table.bits_of(s)).collect();
        let with = |pattern: usize| states.clone().filter(|&s| bits[s] == pattern).map(|s| 1 << s).sum();
        Masks {
            next: table.successors.iter().map(|row| row.iter().map(|&s| 1 << s).sum()).collect(),
            starts: where_true(&table.start),
            goal_free: !where_true(&table.goal) & every_state(table.states()),
            sets: table.sets.iter().map(|set| where_true(set)).collect(),
            with_bits: (0..table.bit_patterns()).map(with).collect(),
            bits,
        }
    }

    pub fn states(&self) -> usize {
        self.next.len()
    }

    /// The goal-free states with an edge into the given ones.
    pub fn before(&self, states: u64) -> u64 {
        members(self.goal_free).filter(|&s| self.next[s] & states != 0).map(|s| 1 << s).sum()
    }
}

pub fn every_state(n: usize) -> u64 {
    u64::MAX >> (64 - n)
}

/// The states in a mask, rising.
pub fn members(mut mask: u64) -> impl Iterator<Item = usize> {
    std::iter::from_fn(move || {
        let state = mask.trailing_zeros() as usize;
        mask &= mask.wrapping_sub(1);
        (state < 64).then_some(state)
    })
}

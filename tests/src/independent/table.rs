//! A table taken apart into plain lists ("The table file").

#[derive(Clone, Debug, PartialEq, Eq)]
pub struct Table {
    /// The targets of each state's row.
    pub successors: Vec<Vec<usize>>,
    pub start: Vec<bool>,
    pub goal: Vec<bool>,
    /// For each set below m, whether each state is a member.
    pub sets: Vec<Vec<bool>>,
}

impl Table {
    pub fn states(&self) -> usize {
        self.successors.len()
    }

    pub fn edges(&self) -> usize {
        self.successors.iter().map(Vec::len).sum()
    }

    pub fn has_edge(&self, s: usize, next: usize) -> bool {
        self.successors[s].contains(&next)
    }

    /// The number with a bit for every set, 2^m.
    pub fn bit_patterns(&self) -> usize {
        1 << self.sets.len()
    }

    /// The bits of the sets holding s.
    pub fn bits_of(&self, s: usize) -> usize {
        (0..self.sets.len()).filter(|&set| self.sets[set][s]).map(|set| 1 << set).sum()
    }
}

//! A table before it is written: rows of targets and marks. Its bytes follow docs/RULES.md, "The table file".

use std::collections::BTreeSet;

pub const START: u8 = 1;
pub const GOAL: u8 = 2;

#[derive(Clone)]
pub struct Sketch {
    pub rows: Vec<BTreeSet<usize>>,
    pub marks: Vec<u8>,
    pub sets: usize,
}

impl Sketch {
    /// n states without an edge or a mark.
    pub fn bare(n: usize, sets: usize) -> Self {
        Sketch {
            rows: vec![BTreeSet::new(); n],
            marks: vec![0; n],
            sets,
        }
    }

    pub fn states(&self) -> usize {
        self.rows.len()
    }

    pub fn edges(&self) -> usize {
        self.rows.iter().map(BTreeSet::len).sum()
    }

    pub fn edge(&mut self, from: usize, to: usize) {
        self.rows[from].insert(to);
    }

    pub fn with_edges(mut self, edges: &[(usize, usize)]) -> Self {
        edges.iter().for_each(|&(from, to)| self.edge(from, to));
        self
    }

    pub fn mark(mut self, s: usize, bits: u8) -> Self {
        self.marks[s] |= bits;
        self
    }

    /// The states become members of the set.
    pub fn members(mut self, set: usize, states: &[usize]) -> Self {
        states.iter().for_each(|&s| self.marks[s] |= 4 << set);
        self
    }

    pub fn bytes(&self) -> Vec<u8> {
        let (n, e) = (self.states(), self.edges());
        let header = [1, n, e, self.sets, 28, 32 + 4 * n, 32 + 4 * n + 4 * e];
        let starts = std::iter::once(0).chain(self.rows.iter().scan(0, |start, row| {
            *start += row.len();
            Some(*start)
        }));
        let targets = self.rows.iter().flatten().copied();
        let words = header.into_iter().chain(starts).chain(targets);
        words
            .flat_map(|word| (word as u32).to_le_bytes())
            .chain(self.marks.iter().copied())
            .collect()
    }
}

//! A table before it is a file: for each state a mask of successors, and masks of the starts, the goals and the sets. A row may be empty here, and
//! there may be too many edges, sets or members, for tables that are to be refused.

use super::random::Random;

pub const MOST_STATES: usize = 64;
pub const MOST_EDGES: usize = 1_024;

#[derive(Clone, Debug)]
pub struct Sketch {
    pub rows: Vec<u64>,
    pub start: u64,
    pub goal: u64,
    pub sets: Vec<u64>,
}

impl Sketch {
    /// No edge, start 0, no goal, m sets without members.
    pub fn new(n: usize, m: usize) -> Sketch {
        Sketch {
            rows: vec![0; n],
            start: 1,
            goal: 0,
            sets: vec![0; m],
        }
    }

    pub fn states(&self) -> usize {
        self.rows.len()
    }

    pub fn edges(&self) -> usize {
        self.rows.iter().map(|row| row.count_ones() as usize).sum()
    }

    pub fn add(&mut self, s: usize, next: usize) {
        self.rows[s] |= 1 << next;
    }

    /// Gives every state a successor and takes away edges beyond the most that a table may have.
    pub fn finish(&mut self, random: &mut Random) {
        let n = self.states();
        for s in 0..n {
            if self.rows[s] == 0 {
                self.add(s, random.below(n));
            }
        }
        let mut surplus = self.edges().saturating_sub(MOST_EDGES);
        while surplus > 0 {
            let s = random.below(n);
            if self.rows[s].count_ones() > 1 {
                self.rows[s] &= !(1 << random.pick(&listed(self.rows[s])));
                surplus -= 1;
            }
        }
    }

    /// The same table with its states numbered in another order.
    pub fn renumbered(&self, random: &mut Random) -> Sketch {
        let order = random.order(self.states());
        let moved = |mask: u64| listed(mask).iter().map(|&s| 1 << order[s]).sum::<u64>();
        let mut rows = vec![0; self.states()];
        for (s, &row) in self.rows.iter().enumerate() {
            rows[order[s]] = moved(row);
        }
        Sketch {
            rows,
            start: moved(self.start),
            goal: moved(self.goal),
            sets: self.sets.iter().map(|&set| moved(set)).collect(),
        }
    }

    /// The table file ("The table file").
    pub fn file(&self) -> Vec<u8> {
        let rows: Vec<Vec<usize>> = self.rows.iter().map(|&row| listed(row)).collect();
        let marks: Vec<u8> = (0..self.states()).map(|s| self.mark(s)).collect();
        file(self.sets.len(), &rows, &marks)
    }

    fn mark(&self, s: usize) -> u8 {
        let masks = [self.start, self.goal].into_iter().chain(self.sets.iter().copied());
        masks.enumerate().map(|(bit, mask)| ((mask >> s & 1) as u8) << bit).sum()
    }
}

/// A file of kind 1 with any rows and marks.
pub fn file(m: usize, rows: &[Vec<usize>], marks: &[u8]) -> Vec<u8> {
    let edges: usize = rows.iter().map(Vec::len).sum();
    let targets_at = 28 + 4 * (rows.len() + 1);
    let mut numbers = vec![1, rows.len(), edges, m, 28, targets_at, targets_at + 4 * edges, 0];
    let mut row_end = 0;
    for row in rows {
        row_end += row.len();
        numbers.push(row_end);
    }
    numbers.extend(rows.iter().flatten());
    let mut bytes: Vec<u8> = numbers.iter().flat_map(|&number| (number as u32).to_le_bytes()).collect();
    bytes.extend_from_slice(marks);
    bytes
}

/// The states of a mask, rising.
pub fn listed(mask: u64) -> Vec<usize> {
    (0..64).filter(|&s| mask >> s & 1 == 1).collect()
}

//! Which beginnings of a lasso can be finished with exactly r more states, told backwards for r = 0, 1, 2, .. ("Lasso and choice"). A beginning has a
//! last state s, whose own bits are already counted. Either its loop has begun, at a state q, and some sets have had no member on it yet; or no
//! place before s is the loop's place, so that s itself or a later place is.

use super::masks::{members, Masks};

pub struct Countdown {
    patterns: usize,
    /// For each r, at q·2^m + missing sets: the last states of a loop begun at q that can be closed.
    begun: Vec<Vec<u64>>,
    /// For each r: the last states of beginnings whose loop has not begun.
    not_begun: Vec<u64>,
}

impl Countdown {
    /// Counts until a start is among the beginnings that can be finished: r is then the smallest k. There must be a lasso, and its loop must lie in
    /// the given states.
    pub fn to_a_start(masks: &Masks, loop_states: u64) -> Countdown {
        let mut countdown = Countdown {
            patterns: masks.with_bits.len(),
            begun: Vec::new(),
            not_begun: Vec::new(),
        };
        let bound = masks.states() * (masks.sets.len() + 2);
        loop {
            countdown.count_one(masks, loop_states);
            if countdown.not_begun[countdown.k()] & masks.starts != 0 {
                return countdown;
            }
            assert!(
                countdown.k() < bound,
                "independent side: a table with a lasso has none of length {bound} or less"
            );
        }
    }

    /// The highest r counted to.
    pub fn k(&self) -> usize {
        self.not_begun.len() - 1
    }

    pub fn can_close(&self, r: usize, q: usize, missing: usize, s: usize) -> bool {
        self.begun[r][q * self.patterns + missing] & (1 << s) != 0
    }

    pub fn can_begin(&self, r: usize, s: usize) -> bool {
        self.not_begun[r] & (1 << s) != 0
    }

    fn count_one(&mut self, masks: &Masks, loop_states: u64) {
        let mut begun = vec![0; masks.states() * self.patterns];
        for q in members(loop_states) {
            for missing in 0..self.patterns {
                begun[q * self.patterns + missing] = self.closable(masks, q, missing);
            }
        }
        let later = self.not_begun.last().map_or(0, |&states| masks.before(states));
        let here = members(loop_states).filter(|&q| {
            let missing = (self.patterns - 1) & !masks.bits[q];
            begun[q * self.patterns + missing] & (1 << q) != 0
        });
        self.not_begun.push(here.fold(later, |all, q| all | 1 << q));
        self.begun.push(begun);
    }

    /// With no state to come, nothing may be missing and q must follow. Otherwise the state to come takes its bits off what is missing.
    fn closable(&self, masks: &Masks, q: usize, missing: usize) -> u64 {
        let Some(one_less) = self.begun.last() else {
            return if missing == 0 { masks.before(1 << q) } else { 0 };
        };
        let to_come = masks
            .with_bits
            .iter()
            .enumerate()
            .map(|(bits, states)| states & one_less[q * self.patterns + (missing & !bits)]);
        masks.before(to_come.fold(0, |all, states| all | states))
    }
}

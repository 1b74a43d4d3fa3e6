//! A small random generator (splitmix64). Every table has its own, made of the seed, the kind of table and the table's number, so that one table can
//! be drawn again without those before it.

#[derive(Clone)]
pub struct Random {
    state: u64,
}

impl Random {
    pub fn for_table(seed: u64, kind: &str, number: u64) -> Random {
        let mut random = Random { state: seed };
        for part in kind.bytes().map(u64::from).chain([number]) {
            random.state = random.word() ^ part;
        }
        random
    }

    pub fn word(&mut self) -> u64 {
        self.state = self.state.wrapping_add(0x9e37_79b9_7f4a_7c15);
        let mixed = (self.state ^ (self.state >> 30)).wrapping_mul(0xbf58_476d_1ce4_e5b9);
        let mixed = (mixed ^ (mixed >> 27)).wrapping_mul(0x94d0_49bb_1331_11eb);
        mixed ^ (mixed >> 31)
    }

    /// A number below the bound, which is not 0.
    pub fn below(&mut self, bound: usize) -> usize {
        (self.word() % bound as u64) as usize
    }

    /// A number from the first to the last, both included.
    pub fn between(&mut self, first: usize, last: usize) -> usize {
        first + self.below(last - first + 1)
    }

    pub fn chance(&mut self, percent: usize) -> bool {
        self.below(100) < percent
    }

    pub fn pick<T: Copy>(&mut self, choices: &[T]) -> T {
        choices[self.below(choices.len())]
    }

    /// A set of states below n, each taken with the chance given.
    pub fn states(&mut self, n: usize, percent: usize) -> u64 {
        (0..n).filter(|_| self.chance(percent)).map(|s| 1 << s).sum()
    }

    /// An order of the numbers below n.
    pub fn order(&mut self, n: usize) -> Vec<usize> {
        let mut order: Vec<usize> = (0..n).collect();
        for i in (1..n).rev() {
            order.swap(i, self.below(i + 1));
        }
        order
    }
}

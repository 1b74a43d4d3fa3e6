//! Random accepted tables, and random text forms of a table. Reads docs/RULES.md, "The table file".
use crate::plain::Plain;

const MOST_EDGES: usize = 1024;

/// Xorshift with 64 bits. A seed gives the same tables on every machine.
pub struct Random(u64);

impl Random {
    pub fn new(seed: u64) -> Random {
        Random(seed.wrapping_mul(0x9e37_79b9_7f4a_7c15) | 1)
    }

    pub fn below(&mut self, limit: usize) -> usize {
        self.0 ^= self.0 << 13;
        self.0 ^= self.0 >> 7;
        self.0 ^= self.0 << 17;
        ((self.0 >> 33) as usize) % limit
    }

    fn coin(&mut self) -> bool {
        self.below(2) == 0
    }

    fn shuffle<T>(&mut self, list: &mut [T]) {
        for last in (1..list.len()).rev() {
            list.swap(last, self.below(last + 1));
        }
    }

    /// Up to 64 states and 4 sets. Every fourth table is small. Rows are short more often than long, and marks rare more often than not, so that long
    /// lassos come up too.
    pub fn table(&mut self) -> Plain {
        let n = 1 + if self.below(4) == 0 { self.below(4) } else { self.below(64) };
        let sets = self.below(5);
        let density = 1 + self.below(n);
        let density = 1 + self.below(density);
        let rarity = 2 + self.below(8);
        let mut room = MOST_EDGES;
        let mut rows = Vec::new();
        for state in 0..n {
            let rows_after = n - state - 1;
            let row = self.row(n, density, room - rows_after);
            room -= row.len();
            rows.push(row);
        }
        let marks = (0..n).map(|_| self.mark(2 + sets, rarity)).collect();
        Plain { sets, marks, rows }
    }

    /// Each of the low bits is set once in `rarity` times.
    fn mark(&mut self, bits: usize, rarity: usize) -> u8 {
        (0..bits).filter(|_| self.below(rarity) == 0).map(|bit| 1 << bit).sum()
    }

    /// At least one target and at most `room`, rising.
    fn row(&mut self, n: usize, density: usize, room: usize) -> Vec<usize> {
        let mut targets: Vec<usize> = (0..n).collect();
        self.shuffle(&mut targets);
        targets.truncate((1 + self.below(density)).min(room));
        targets.sort_unstable();
        targets
    }

    /// A text of the table with names, comments, blank lines and every list in random order.
    pub fn text_of(&mut self, table: &Plain) -> String {
        let named: Vec<bool> = table.rows.iter().map(|_| self.coin()).collect();
        let sets_named = self.coin();
        let mut text = format!("# {} states\n\n", table.rows.len());
        text += &match (table.sets, sets_named) {
            (0, _) => String::new(),
            (sets, true) => format!("sets {}\n", (0..sets).map(|set| format!("set-{set}")).collect::<Vec<_>>().join(" ")),
            (sets, false) => format!("sets {sets} # a count\n"),
        };
        for state in 0..table.rows.len() {
            let own = self.word_of(state, named[state]);
            let own = if named[state] { format!("s.{state}") } else { own };
            let marks = self.marks_of(table, state, sets_named);
            let mut row = table.rows[state].clone();
            self.shuffle(&mut row);
            let row: Vec<String> = row.iter().map(|to| self.word_of(*to, named[*to])).collect();
            text += &format!(" state {own} {marks}\t-> {} # {state}\n", row.join("  "));
        }
        text
    }

    fn word_of(&mut self, state: usize, named: bool) -> String {
        if named && self.coin() {
            format!("s.{state}")
        } else {
            state.to_string()
        }
    }

    fn marks_of(&mut self, table: &Plain, state: usize, sets_named: bool) -> String {
        let mut members = table.members(state);
        self.shuffle(&mut members);
        let word = |set: &usize| if sets_named { format!("set-{set}") } else { set.to_string() };
        let mut marks = Vec::new();
        if table.starts(state) {
            marks.push("start".to_string());
        }
        if table.goal(state) {
            marks.push("goal".to_string());
        }
        if !members.is_empty() {
            marks.push(format!("in {}", members.iter().map(word).collect::<Vec<_>>().join(" ")));
        }
        self.shuffle(&mut marks);
        marks.join(" ")
    }
}

#[test]
fn tables_are_accepted_and_reach_the_limits() {
    let mut random = Random::new(1);
    let (mut states, mut edges, mut sets) = (0, 0, [false; 5]);
    for _ in 0..2000 {
        let table = random.table();
        let opened = lasso::open(&table.bytes()).expect("an accepted table");
        states = states.max(opened.states);
        edges = edges.max(opened.edges);
        sets[opened.sets] = true;
    }
    assert_eq!((states, edges, sets), (64, 1024, [true; 5]));
}

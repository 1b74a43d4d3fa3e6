//! Tables drawn at random.

use super::sketch::{Sketch, GOAL, START};
use crate::random::Random;

/// n states, e edges and m sets without a mark. Each state gets one edge first, so that no row is empty.
pub fn edges_only(random: &mut Random, n: usize, e: usize, m: usize) -> Sketch {
    let mut sketch = Sketch::bare(n, m);
    for s in 0..n {
        let target = random.below(n);
        sketch.edge(s, target);
    }
    while sketch.edges() < e {
        let (from, to) = (random.below(n), random.below(n));
        sketch.edge(from, to);
    }
    sketch
}

/// Chances in percent that a state is a start, has the goal, is a member of each set.
#[derive(Clone, Copy)]
pub struct Chances {
    pub start: usize,
    pub goal: usize,
    pub member: usize,
}

pub fn marked(random: &mut Random, mut sketch: Sketch, chances: Chances) -> Sketch {
    for s in 0..sketch.states() {
        let start = u8::from(random.percent(chances.start)) * START;
        let goal = u8::from(random.percent(chances.goal)) * GOAL;
        let sets = (0..sketch.sets)
            .filter(|_| random.percent(chances.member))
            .fold(0, |bits, set| bits | 4 << set);
        sketch.marks[s] |= start | goal | sets;
    }
    sketch
}

/// A table of this size with usual marks and state 0 as a start.
pub fn usual(random: &mut Random, n: usize, e: usize, m: usize) -> Sketch {
    let sketch = edges_only(random, n, e, m).mark(0, START);
    marked(
        random,
        sketch,
        Chances {
            start: 3,
            goal: 15,
            member: 20,
        },
    )
}

/// A small table of any kind, for comparing: up to n states.
pub fn any(random: &mut Random, most_states: usize) -> Sketch {
    let n = random.between(1, most_states);
    let e = random.between(n, (n * n).min(n * 4));
    let m = random.between(0, 4);
    let chances = Chances {
        start: random.between(0, 60),
        goal: random.between(0, 50),
        member: random.between(0, 70),
    };
    let sketch = edges_only(random, n, e, m);
    marked(random, sketch, chances)
}

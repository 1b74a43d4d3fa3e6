//! Tables with a lasso that is found early or late.

use super::drawn::usual;
use super::sketch::{Sketch, GOAL, START};
use crate::random::Random;

/// State 0 is a start, in all sets, with an edge to itself: the first row of the search has the bad slot.
pub fn at_once(random: &mut Random, n: usize, e: usize, m: usize) -> Sketch {
    let mut sketch = usual(random, n, e - 1, m).with_edges(&[(0, 0)]);
    sketch.marks[0] &= !GOAL;
    (0..m).fold(sketch, |sketch, set| sketch.members(set, &[0]))
}

/// Forward by one state only, back at random. The first set is {0} and the last is {n-1}, so that the loop holds both ends. m is 2 or more.
pub fn late(random: &mut Random, n: usize, e: usize, m: usize) -> Sketch {
    let mut sketch = Sketch::bare(n, m).mark(0, START).members(0, &[0]).members(m - 1, &[n - 1]);
    for s in 0..n - 1 {
        sketch.edge(s, s + 1);
    }
    sketch.edge(n - 1, n / 2);
    while sketch.edges() < e {
        let from = random.below(n);
        let to = random.below(from + 1);
        sketch.edge(from, to);
    }
    (1..m - 1).fold(sketch, |sketch, set| {
        let members: Vec<_> = (0..n).filter(|_| random.percent(20)).collect();
        sketch.members(set, &members)
    })
}

/// Without sets: one goal-free loop at the end of a chain. The last state has the goal; every state leads to it and it leads to every state.
pub fn at_end_of_chain(n: usize) -> Sketch {
    let goal = n - 1;
    let mut sketch = Sketch::bare(n, 0).mark(0, START).mark(goal, GOAL);
    for s in 0..goal {
        sketch.edge(s, s + 1);
        sketch.edge(s, goal);
        sketch.edge(goal, s);
    }
    sketch.edge(goal - 1, goal / 2);
    sketch
}

//! Tables without a lasso whose search has to walk many slots.

use super::drawn::{edges_only, marked, Chances};
use super::sketch::{Sketch, GOAL, START};
use crate::random::Random;

/// No goal, and the last set is empty: every state is walked with every saved state and with every value of the other bits. m is not 0.
pub fn empty_set(random: &mut Random, n: usize, e: usize, m: usize) -> Sketch {
    let mut sketch = edges_only(random, n, e, m).mark(0, START);
    sketch.sets = m - 1;
    let mut sketch = marked(
        random,
        sketch,
        Chances {
            start: 0,
            goal: 0,
            member: 20,
        },
    );
    sketch.sets = m;
    sketch
}

/// No goal, and the only member of the last set is a start to which no edge leads. m is not 0.
pub fn set_before_loops(random: &mut Random, n: usize, e: usize, m: usize) -> Sketch {
    let rest = empty_set(random, n - 1, e - 2, m);
    let mut sketch = Sketch::bare(n, m).mark(0, START).members(m - 1, &[0]);
    for (s, row) in rest.rows.iter().enumerate() {
        row.iter().for_each(|target| sketch.edge(s + 1, target + 1));
        sketch.marks[s + 1] = rest.marks[s] & !START;
    }
    sketch.with_edges(&[(0, 1), (0, n - 1)])
}

/// Goal-free states lead to later ones only. The last eighth of the states, at least one, have the goal and lead to any state.
pub fn goal_on_loops(random: &mut Random, n: usize, e: usize, m: usize) -> Sketch {
    let goals = n - (n / 8).max(1);
    let mut sketch = (goals..n).fold(Sketch::bare(n, m).mark(0, START), |sketch, s| sketch.mark(s, GOAL));
    for s in 0..n {
        let target = if s < goals { s + 1 } else { random.below(n) };
        sketch.edge(s, target);
    }
    while sketch.edges() < e {
        let (from, to) = (random.below(n), random.below(n));
        if from < to || from >= goals {
            sketch.edge(from, to);
        }
    }
    marked(
        random,
        sketch,
        Chances {
            start: 3,
            goal: 0,
            member: 20,
        },
    )
}

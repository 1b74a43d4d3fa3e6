//! Small tables: 1 to 6 states, 0 to 4 sets, with chances that differ from table to table, so that few and many edges, goals, starts and members, and
//! none or all of them, come up.

use super::random::Random;
use super::sketch::Sketch;

const EDGE_CHANCES: [usize; 7] = [0, 10, 20, 35, 50, 80, 100];
const GOAL_CHANCES: [usize; 5] = [0, 0, 10, 20, 40];
const START_CHANCES: [usize; 4] = [15, 30, 60, 100];
const MEMBER_CHANCES: [usize; 6] = [20, 20, 35, 50, 80, 100];

pub fn small(random: &mut Random) -> Sketch {
    let n = random.between(1, 6);
    let mut sketch = Sketch::new(n, random.below(5));
    let edge_chance = random.pick(&EDGE_CHANCES);
    for row in sketch.rows.iter_mut() {
        *row = random.states(n, edge_chance);
    }
    sketch.finish(random);
    let goal_chance = if random.chance(97) { random.pick(&GOAL_CHANCES) } else { 100 };
    sketch.goal = random.states(n, goal_chance);
    sketch.start = starts(random, n);
    for set in sketch.sets.iter_mut() {
        *set = members(random, n);
    }
    sketch
}

/// Seldom none, as this alone decides the search.
fn starts(random: &mut Random, n: usize) -> u64 {
    if random.chance(4) {
        0
    } else if random.chance(50) {
        1 << random.below(n)
    } else {
        let chance = random.pick(&START_CHANCES);
        random.states(n, chance) | 1 << random.below(n)
    }
}

/// Mostly at least one member, as an empty set alone decides the search.
fn members(random: &mut Random, n: usize) -> u64 {
    let chance = random.pick(&MEMBER_CHANCES);
    let drawn = random.states(n, chance);
    if random.chance(80) {
        drawn | 1 << random.below(n)
    } else {
        drawn
    }
}

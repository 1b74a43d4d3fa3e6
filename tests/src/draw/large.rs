//! Larger tables: up to 64 states, 1,024 edges and 4 sets, in shapes whose least lassos are long, go through a state twice, or tie.

use super::random::Random;
use super::sketch::{Sketch, MOST_EDGES, MOST_STATES};

pub fn large(random: &mut Random) -> Sketch {
    let m = random.below(5);
    let shapes = [ring, tail, flower, sparse, dense, clusters, twins, forks, most];
    let shape = random.pick(&shapes);
    let mut sketch = shape(random, m);
    sketch.finish(random);
    sketch.renumbered(random)
}

/// A larger table of the most states and the most edges.
pub fn largest(random: &mut Random) -> Sketch {
    let m = random.below(5);
    most(random, m)
}

/// A table with the given n, e and m: a ring, with chords until there are e edges. e is at least n.
pub fn of_size(random: &mut Random, n: usize, e: usize, m: usize) -> Sketch {
    let mut sketch = Sketch::new(n, m);
    for s in 0..n {
        sketch.add(s, (s + 1) % n);
    }
    while sketch.edges() < e {
        sketch.add(random.below(n), random.below(n));
    }
    few_marks(random, &mut sketch);
    sketch.renumbered(random)
}

/// More of the smaller sizes, where lassos of the middle lengths are.
fn size(random: &mut Random) -> usize {
    let most = random.pick(&[14, 28, MOST_STATES, MOST_STATES]);
    random.between(7, most)
}

/// One ring with some chords.
fn ring(random: &mut Random, m: usize) -> Sketch {
    let n = size(random);
    let chords = random.pick(&[0, 0, 1, 2, n / 8, n / 4]);
    of_size(random, n, n + chords, m)
}

/// A path into a ring, and now and then an edge to a state with the goal.
fn tail(random: &mut Random, m: usize) -> Sketch {
    let n = size(random);
    let mut sketch = Sketch::new(n, m);
    let entry = random.below(n - 1);
    for s in 0..n - 2 {
        sketch.add(s, s + 1);
        if random.chance(15) {
            sketch.add(s, n - 1);
        }
    }
    sketch.add(n - 2, entry);
    sketch.goal = 1 << (n - 1);
    sketch.add(n - 1, random.below(n));
    for set in 0..m {
        let from = if random.chance(85) { entry } else { 0 };
        sketch.sets[set] = 1 << random.between(from, n - 2);
    }
    sketch
}

/// Several rings through one state, each set on rings of its own: the loop goes through the middle more than once.
fn flower(random: &mut Random, m: usize) -> Sketch {
    let petals = random.between(2, 6);
    let length = random.between(1, 9);
    let same = random.chance(50);
    let mut sketch = Sketch::new(1, m);
    for petal in 0..petals {
        let more = if same { length } else { random.between(1, 9) };
        let first = sketch.states();
        sketch.rows.resize(first + more, 0);
        sketch.add(0, first);
        for s in first..first + more {
            sketch.add(s, if s + 1 < first + more { s + 1 } else { 0 });
        }
        if m > 0 {
            sketch.sets[petal % m] |= 1 << random.between(first, first + more - 1);
        }
    }
    let n = sketch.states();
    for set in 0..m {
        if sketch.sets[set] == 0 && random.chance(90) {
            sketch.sets[set] = 1 << random.below(n);
        }
    }
    sketch.start = 1 << random.below(n) | 1 << random.below(n);
    sketch
}

/// One to three successors each.
fn sparse(random: &mut Random, m: usize) -> Sketch {
    let n = size(random);
    let most = random.between(1, 3);
    let mut sketch = Sketch::new(n, m);
    for s in 0..n {
        for _ in 0..random.between(1, most) {
            sketch.add(s, random.below(n));
        }
    }
    few_marks(random, &mut sketch);
    sketch
}

/// Many successors each.
fn dense(random: &mut Random, m: usize) -> Sketch {
    let n = size(random);
    let chance = random.pick(&[10, 20, 40, 90]);
    let mut sketch = Sketch::new(n, m);
    for row in sketch.rows.iter_mut() {
        *row = random.states(n, chance);
    }
    few_marks(random, &mut sketch);
    if random.chance(50) {
        sketch.goal = random.states(n, 60);
    }
    sketch
}

/// Rings in a row, each leading to the next; the members of a set are often in one ring only.
fn clusters(random: &mut Random, m: usize) -> Sketch {
    let mut sketch = Sketch::new(0, m);
    let mut firsts = Vec::new();
    while sketch.states() < 7 || (sketch.states() < 54 && random.chance(75)) {
        let first = sketch.states();
        let size = random.between(1, 9);
        sketch.rows.resize(first + size, 0);
        for s in first..first + size {
            sketch.add(s, first + (s + 1 - first) % size);
        }
        if first > 0 {
            sketch.add(random.below(first), random.between(first, first + size - 1));
        }
        firsts.push(first);
    }
    let n = sketch.states();
    let fair_first = random.pick(&firsts);
    for set in 0..m {
        sketch.sets[set] = 1 << random.between(fair_first, n - 1) | 1 << random.below(n);
    }
    if random.chance(30) {
        sketch.goal = 1 << random.below(n);
    }
    sketch.start = 1;
    sketch
}

/// Layers of states, each leading to some of the next layer, and the last back to the first: many lassos of one length.
fn twins(random: &mut Random, m: usize) -> Sketch {
    let (layers, width) = (random.between(2, 12), random.between(2, 5));
    let n = layers * width;
    let mut sketch = Sketch::new(n, m);
    let chance = random.pick(&[30, 60, 100]);
    for s in 0..n {
        let next_layer = (s / width + 1) % layers * width;
        for next in next_layer..next_layer + width {
            if random.chance(chance) {
                sketch.add(s, next);
            }
        }
        if sketch.rows[s] == 0 {
            sketch.add(s, next_layer + random.below(width));
        }
    }
    let start_chance = random.pick(&[10, 50]);
    sketch.start = random.states(n, start_chance) | 1 << random.below(n);
    for set in 0..m {
        sketch.sets[set] = random.states(n, 15) | 1 << random.below(n);
    }
    sketch
}

/// A path that forks into branches of one length, each leading back to a place of its own on the path: lassos that tie in k and differ in l and run.
fn forks(random: &mut Random, m: usize) -> Sketch {
    let (path, branches, length) = (random.between(2, 12), random.between(2, 4), random.between(1, 4));
    let mut sketch = Sketch::new(path + branches * length, m);
    for s in 1..path {
        sketch.add(s - 1, s);
    }
    let fork = random.between(path / 2, path - 1);
    for branch in 0..branches {
        let first = path + branch * length;
        sketch.add(fork, first);
        for s in first..first + length - 1 {
            sketch.add(s, s + 1);
        }
        sketch.add(first + length - 1, random.below(path));
    }
    for set in 0..m {
        sketch.sets[set] = random.states(sketch.states(), 30) | 1 << fork;
    }
    sketch
}

/// 64 states and 1,024 edges.
fn most(random: &mut Random, m: usize) -> Sketch {
    let mut sketch = of_size(random, MOST_STATES, MOST_EDGES, m);
    if random.chance(50) {
        sketch.goal = random.states(MOST_STATES, 70);
        sketch.start = random.states(MOST_STATES, 10);
    }
    sketch
}

/// One to three starts, no goal or a few, one to three members a set.
fn few_marks(random: &mut Random, sketch: &mut Sketch) {
    let n = sketch.states();
    sketch.start = few_states(random, n);
    if random.chance(35) {
        sketch.goal = few_states(random, n) & !sketch.start;
    }
    for set in sketch.sets.iter_mut() {
        *set = few_states(random, n);
    }
}

fn few_states(random: &mut Random, n: usize) -> u64 {
    (0..random.between(1, 3)).fold(0, |mask, _| mask | 1 << random.below(n))
}

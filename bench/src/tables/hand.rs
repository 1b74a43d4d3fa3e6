//! Tables of docs/RULES.md, "Tables by hand".

use super::sketch::{Sketch, GOAL, START};

/// Its letter, the table, and what the rules say of it: k, l and run, or nothing for "holds"; then S, E and bytes.
#[cfg(test)]
pub type Row = (char, Sketch, Option<(usize, usize, Vec<u32>)>, [usize; 3]);

fn started(n: usize, sets: usize) -> Sketch {
    Sketch::bare(n, sets).mark(0, START)
}

fn ring(n: usize) -> Vec<(usize, usize)> {
    (0..n).map(|s| (s, (s + 1) % n)).collect()
}

pub fn a() -> Sketch {
    b().with_edges(&[(0, 0), (1, 1), (2, 2), (3, 3)])
}

pub fn b() -> Sketch {
    started(4, 0).with_edges(&ring(4)).mark(3, GOAL)
}

pub fn j() -> Sketch {
    let spokes: Vec<_> = (0..4).flat_map(|s| [(s, 4), (4, s)]).collect();
    started(5, 0).with_edges(&ring(4)).with_edges(&spokes).mark(4, GOAL)
}

/// Not in the rules: j with a second goal, in state 3, holds.
pub fn j_with_goal_3() -> Sketch {
    j().mark(3, GOAL)
}

#[cfg(test)]
pub fn all() -> Vec<Row> {
    let lasso = |k, l, run: &[u32]| Some((k, l, run.to_vec()));
    let one = || Sketch::bare(1, 0).with_edges(&[(0, 0)]);
    vec![
        ('a', a(), lasso(0, 0, &[0]), [40, 96, 616]),
        ('b', b(), None, [40, 48, 424]),
        ('c', one().mark(0, START), lasso(0, 0, &[0]), [4, 6, 76]),
        ('d', one().mark(0, START | GOAL), None, [4, 6, 76]),
        (
            'e',
            started(2, 1).with_edges(&[(0, 0), (0, 1), (1, 1)]).members(0, &[1]),
            lasso(1, 1, &[0, 1]),
            [24, 48, 344],
        ),
        ('f', started(2, 1).with_edges(&[(0, 1), (1, 1)]).members(0, &[0]), None, [24, 32, 280]),
        (
            'g',
            started(2, 2).with_edges(&ring(2)).members(0, &[0]).members(1, &[1]),
            lasso(1, 0, &[0, 1]),
            [48, 64, 528],
        ),
        (
            'h',
            started(2, 0).with_edges(&[(0, 1), (1, 0), (1, 1)]),
            lasso(1, 0, &[0, 1]),
            [12, 24, 188],
        ),
        (
            'i',
            started(4, 0).with_edges(&[(0, 1), (1, 2), (1, 3), (2, 1), (3, 0)]),
            lasso(2, 0, &[0, 1, 3]),
            [40, 60, 472],
        ),
        ('j', j(), lasso(3, 0, &[0, 1, 2, 3]), [60, 168, 1004]),
        ('k', one(), None, [4, 6, 76]),
        ('l', started(1, 4).with_edges(&[(0, 0)]), None, [64, 96, 736]),
    ]
}

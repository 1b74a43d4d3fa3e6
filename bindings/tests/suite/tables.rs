//! Tables for the tests.
use lasso::{KIND_CLIENT, MARK_START};

/// A table of m sets with these rows and marks. Nothing is checked.
pub fn table(sets: usize, rows: &[Vec<usize>], marks: &[u8]) -> Vec<u8> {
    let (states, edges) = (rows.len(), rows.iter().map(Vec::len).sum::<usize>());
    let targets = 28 + 4 * (states + 1);
    let mut numbers = vec![KIND_CLIENT as usize, states, edges, sets, 28, targets, targets + 4 * edges];
    let ends = rows.iter().scan(0, |end, row| {
        *end += row.len();
        Some(*end)
    });
    numbers.push(0);
    numbers.extend(ends);
    numbers.extend(rows.iter().flatten());
    let bytes = numbers.iter().flat_map(|number| (*number as u32).to_le_bytes());
    bytes.chain(marks.iter().copied()).collect()
}

/// A table of n states, e edges and m sets, with e from n to n·n: the rows have the same number of targets, or one more. State 0 is the start.
pub fn filled(states: usize, edges: usize, sets: usize) -> Vec<u8> {
    let rows: Vec<Vec<usize>> = (0..states)
        .map(|state| (0..edges / states + usize::from(state < edges % states)).collect())
        .collect();
    let mut marks = vec![0; states];
    marks[0] = MARK_START;
    table(sets, &rows, &marks)
}

/// Five states with the lasso 0 1 2 3 and back to 2. Set i has i+1 members. No two numbers of an answer of one job are the same.
pub fn uneven() -> Vec<u8> {
    let rows = [vec![1], vec![2], vec![3], vec![2, 3], vec![4]];
    table(4, &rows, &[0b10_0001, 0b11_0000, 0b11_1000, 0b11_1100, 0])
}

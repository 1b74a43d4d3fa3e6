//! The content of a table file that the library accepts. Reads docs/RULES.md, "The table file". What is accepted is the library's to say, so nothing
//! is checked here a second time.
use crate::content::{Content, State};
use crate::rules::{set_bit, Layout, GOAL_BIT, START_BIT, WORD};
use lasso::Refusal;

pub fn read_file(bytes: &[u8]) -> Result<Content, Refusal> {
    let table = lasso::open(bytes)?;
    let layout = Layout::of(table.states, table.edges);
    let row_starts = words(&bytes[layout.row_starts..layout.targets]);
    let targets = words(&bytes[layout.targets..layout.marks]);
    let marks = &bytes[layout.marks..];
    let row_of = |state: usize| targets[row_starts[state]..row_starts[state + 1]].to_vec();
    let states = (0..table.states).map(|state| state_of(marks[state], table.sets, row_of(state))).collect();
    Ok(Content {
        sets: vec![None; table.sets],
        states,
    })
}

fn state_of(mark: u8, sets: usize, row: Vec<usize>) -> State {
    let has = |bit: u8| mark & bit != 0;
    State {
        name: None,
        start: has(START_BIT),
        goal: has(GOAL_BIT),
        sets: (0..sets).filter(|set| has(set_bit(*set))).collect(),
        row,
    }
}

fn words(bytes: &[u8]) -> Vec<usize> {
    let word = |part: &[u8]| part.iter().rev().fold(0, |number, byte| number << 8 | usize::from(*byte));
    bytes.chunks_exact(WORD).map(word).collect()
}

#[cfg(test)]
mod tests {
    use super::*;

    #[test]
    fn words_are_little_endian() {
        assert_eq!(words(&[1, 0, 0, 0, 2, 1, 0, 0]), [1, 258]);
    }
}
